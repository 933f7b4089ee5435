/* All that the library for hosts asks of a host: memcpy and memset. hosts/c/run links the whole archive with these two and nothing else, so that a third name is an error. Never run. */
void *memcpy(void *restrict to, const void *restrict from, unsigned long count) {
    for (unsigned long i = 0; i < count; i++)
        ((unsigned char *)to)[i] = ((const unsigned char *)from)[i];
    return to;
}

void *memset(void *to, int byte, unsigned long count) {
    for (unsigned long i = 0; i < count; i++)
        ((unsigned char *)to)[i] = (unsigned char)byte;
    return to;
}
