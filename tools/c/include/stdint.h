#ifndef _STDINT
#define _STDINT
typedef signed char int8_t;
typedef unsigned char uint8_t;
typedef int int16_t, intptr_t;
typedef unsigned uint16_t, uintptr_t;
typedef long int32_t;
typedef unsigned long uint32_t;
#endif
