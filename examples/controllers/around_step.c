/* A controller around a generated function `void step(const In *, Out *)`. For another one, change
   the include and what is read into `in` and written of `out`: the scenario's outputs come in, and
   its inputs go out.

   cc -o around_step around_step.c */
#include <stdio.h>
#include "thermostat_step.h"

int main(void)
{
    In in;
    Out out;
    char door[2];

    while (scanf("%lf %1s", &in.temperature, door) == 2) {
        in.door = door[0] == 't';
        step(&in, &out);
        puts(out.heats ? "t" : "f");
        fflush(stdout); /* lurette waits for this line */
    }
    return 0;
}
