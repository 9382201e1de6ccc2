/* Not proved: counts the calls of keeper_apply in everything that is compiled with it (gcc -include). */
#ifndef PLUG_COUNT_H
#define PLUG_COUNT_H
#include "keeper.h"
extern unsigned long plug_calls;
#define keeper_apply(...) (plug_calls++, (keeper_apply)(__VA_ARGS__))
#endif
