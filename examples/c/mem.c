// What the compiler calls for large copies and fills, and the other functions of include/string.h. build.sh links it to
// each program; what is not called is dropped.
#include <stddef.h>
#include <stdint.h>

// Whole words, if both addresses allow it: a word is one event, four bytes are four.
void *memcpy(void *restrict to, const void *restrict from, size_t count) {
  size_t done = 0;
  if ((((uintptr_t)to | (uintptr_t)from) & 3) == 0) {
    for (; count - done >= 4; done += 4) *(uint32_t *)((char *)to + done) = *(const uint32_t *)((const char *)from + done);
  }
  for (; done < count; done++) ((char *)to)[done] = ((const char *)from)[done];
  return to;
}

void *memset(void *to, int value, size_t count) {
  size_t done = 0;
  if (((uintptr_t)to & 3) == 0) {
    uint32_t word = (uint8_t)value * 0x01010101u;
    for (; count - done >= 4; done += 4) *(uint32_t *)((char *)to + done) = word;
  }
  for (; done < count; done++) ((char *)to)[done] = (char)value;
  return to;
}

void *memmove(void *to, const void *from, size_t count) {
  if ((uintptr_t)to <= (uintptr_t)from) return memcpy(to, from, count);
  for (size_t left = count; left > 0; left--) ((char *)to)[left - 1] = ((const char *)from)[left - 1];
  return to;
}

int memcmp(const void *one, const void *other, size_t count) {
  const unsigned char *a = one, *b = other;
  for (size_t i = 0; i < count; i++) {
    if (a[i] != b[i]) return a[i] - b[i];
  }
  return 0;
}

size_t strlen(const char *text) {
  size_t length = 0;
  while (text[length]) length++;
  return length;
}

void *memchr(const void *from, int value, size_t count) {
  const unsigned char *bytes = from;
  for (size_t i = 0; i < count; i++) {
    if (bytes[i] == (unsigned char)value) return (void *)(bytes + i);
  }
  return 0;
}

int strncmp(const char *one, const char *other, size_t count) {
  for (size_t i = 0; i < count; i++) {
    unsigned char a = (unsigned char)one[i], b = (unsigned char)other[i];
    if (a != b || a == 0) return a - b;
  }
  return 0;
}

int strcmp(const char *one, const char *other) { return strncmp(one, other, SIZE_MAX); }

char *strchr(const char *text, int value) {
  for (;; text++) {
    if (*text == (char)value) return (char *)text;
    if (!*text) return 0;
  }
}

char *strcpy(char *restrict to, const char *restrict from) { return memcpy(to, from, strlen(from) + 1); }
