/* The parts of peer-figures. */
#ifndef PEER_FIGURES_H
#define PEER_FIGURES_H

void figures_of_the_page(void);
void figures_of_refusals(void);
void figures_of_sound(void);
void figures_of_images(void);
void figures_of_lists(void);
void figures_of_place(void);
void figures_of_passes(void);

#endif
