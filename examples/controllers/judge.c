/* An oracle: below 19.00 a thermostat heats, and above 21.00 it doesn't. Each line is a step's
   temperature, whether the door is open, and whether the heater is on, such as `18.50 f t`. The
   verdict is `t`, or `f` if the step is wrong.

   cc -o judge judge.c */
#include <stdio.h>

int main(void)
{
    double temperature;
    char door[2], heats[2];

    while (scanf("%lf %1s %1s", &temperature, door, heats) == 3) {
        int too_cold = temperature < 19.0 && heats[0] == 'f';
        int too_warm = temperature > 21.0 && heats[0] == 't';
        puts(too_cold || too_warm ? "f" : "t");
        fflush(stdout); /* lurette waits for this line */
    }
    return 0;
}
