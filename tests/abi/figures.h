// The figures of the build definition, through the library: says which are missed; how many were tried and missed.
#ifndef FIGURES_H
#define FIGURES_H

typedef struct { unsigned tried, missed; } Figures;

Figures figures(void);

#endif
