/* A thermostat as a code generator writes it from SCADE, Lustre or Simulink: one function makes one step. */
#include <stdbool.h>

typedef struct {
    double temperature;
    bool door;
} In;

typedef struct {
    bool heats;
} Out;

/* Heats below 19.00, doesn't above 21.00, and between goes on as before. */
static void step(const In *in, Out *out)
{
    static bool heats = false;
    heats = in->temperature < 19.0 || (heats && in->temperature <= 21.0);
    out->heats = heats;
}
