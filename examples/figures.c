#include "grain.h"
#include <stdio.h>

int main(void) {
    enum { WIDTH = 64, HEIGHT = 48, SAMPLES = WIDTH * HEIGHT, DEPTH = 10 };
    static uint16_t scan[SAMPLES], clean[SAMPLES];
    for (int i = 0; i < SAMPLES; i++) scan[i] = (uint16_t)(512 + i * i % 11);
    uint32_t refusal = grain_denoise_plane(scan, SAMPLES, clean, SAMPLES, WIDTH, HEIGHT);
    grain_sigma sigma = grain_plane_sigma16(scan, SAMPLES, clean, SAMPLES, WIDTH, HEIGHT, DEPTH);
    if (refusal || sigma.refusal) return 1;
    printf("sigma %.2f in 8-bit steps\n", (double)sigma.sigma16 / 16);
}
