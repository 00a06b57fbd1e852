/* An independent model of document 01's session and frames, with the level tables and the WKO2 frames of document 02, Papers 4 and 6, for the host
 * tests. */
#ifndef SESSION_MODEL_H
#define SESSION_MODEL_H
#include "../include/wko.h"

/* Handles a frame: changes *s and the answer buffer, and returns 0 or the refusal's number. */
int model_exchange(struct wko_session *s, const uint8_t *frame, size_t frame_len, uint8_t *answer, size_t answer_len);

/* Loads a level file: changes the table that *s holds and returns 0, or returns 16. */
int model_load(struct wko_session *s, const uint8_t *file, size_t len);

/* Whether a session counts as begun. */
int model_has_begun(const struct wko_session *s);

/* The level of a symbol in a session that has begun. */
long model_level(const struct wko_session *s, int symbol);
#endif
