#ifndef _CTYPE
#define _CTYPE
int isupper(int c);
int islower(int c);
int isalpha(int c);
int isdigit(int c);
int isalnum(int c);
int isspace(int c);
int isprint(int c);
int ispunct(int c);
int toupper(int c);
int tolower(int c);
#endif
