#ifndef _STDIO
#define _STDIO
#include <stdarg.h>
#include <stddef.h>
#define EOF (-1)
#define BUFSIZ 512
typedef struct file {
	int count;		/* bytes that can still be read, or written */
	unsigned char *next;	/* the place of the next one */
	unsigned char *buffer;	/* of BUFSIZ bytes; none before it is used */
	char number, mode;	/* the descriptor; 'r', 'w', or 0 where it is free */
	char ended, failed;
} FILE;
extern FILE _files[];
#define stdin (&_files[0])
#define stdout (&_files[1])
#define stderr (&_files[2])
FILE *fopen(const char *name, const char *mode);
int fclose(FILE *file);
int fflush(FILE *file);
int getc(FILE *file);
int ungetc(int c, FILE *file);
int putc(int c, FILE *file);
int getchar(void);
int putchar(int c);
char *fgets(char *to, int most, FILE *file);
int fputs(const char *text, FILE *file);
int puts(const char *text);
int printf(const char *form, ...);
int fprintf(FILE *file, const char *form, ...);
int sprintf(char *to, const char *form, ...);
int vfprintf(FILE *file, const char *form, va_list list);
#define fgetc getc
#define fputc putc
#define feof(file) ((file)->ended)
#define ferror(file) ((file)->failed)
#endif
