#ifndef _STDARG
#define _STDARG
#ifdef __GNUC__
typedef __builtin_va_list va_list;
#define va_start __builtin_va_start
#define va_arg __builtin_va_arg
#define va_end __builtin_va_end
#else
/* The arguments of a call lie one after the other, an int or a pointer in a word, a long in two. */
typedef char *va_list;
#define va_start(list, last) ((list) = (char *)&(last) + sizeof(last))
#define va_arg(list, type) (*(type *)((list) += sizeof(type), (list) - sizeof(type)))
#define va_end(list) ((void)0)
#endif
#endif
