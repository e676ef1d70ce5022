/* The exported functions of the library under test. */
#ifndef ELEMENTARY_H
#define ELEMENTARY_H
float exp_f32(float x);
float ln_f32(float x);
float powf_f32(float x, float y);
#endif
