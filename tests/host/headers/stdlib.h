#pragma once
int atoi(const char *text);
_Noreturn void _Exit(int status);
