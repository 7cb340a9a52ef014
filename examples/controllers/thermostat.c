/* A thermostat: it heats below 19.00, doesn't above 21.00, and between goes on as before. Each line
   is a temperature and whether the door is open, such as `18.50 f`. It answers `t` to heat, and
   else `f`.

   cc -o thermostat thermostat.c */
#include <stdio.h>

int main(void)
{
    double temperature;
    char door[2];
    int heats = 0;

    while (scanf("%lf %1s", &temperature, door) == 2) {
        if (temperature < 19.0)
            heats = 1;
        else if (temperature > 21.0)
            heats = 0;
        puts(heats ? "t" : "f");
        fflush(stdout); /* lurette waits for this line */
    }
    return 0;
}
