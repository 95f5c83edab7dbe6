// Floating numbers: a polynomial, and the distance of two points.
#include <math.h>

double sine(double x)
{
    double square = x * x;
    return x * (1.0 + square * (-1.0 / 6 + square * (1.0 / 120)));
}

float distance(float x, float y)
{
    if (isnan(x) || isnan(y))
        return -0.1f;
    return sqrtf(x * x + y * y);
}
