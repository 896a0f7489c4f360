/* See stddef.h. */
int printf(const char *, ...);
int puts(const char *);
