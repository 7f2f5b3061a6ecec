/* Marks where the calls begin that are counted, and where they end: a signal, which stops a program that is
   stepped from instruction to instruction (bench/lib/counting.py). A program that nobody steps is not asked for
   marks, by a third word, since the signal would end it. */

#include <signal.h>

static void mark(int words)
{
    if (words == 4)
        raise(SIGUSR1);
}
