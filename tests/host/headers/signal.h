#pragma once
#define SIGUSR1 10
#define SIGSEGV 11
void (*signal(int number, void (*handler)(int)))(int);
int raise(int number);
