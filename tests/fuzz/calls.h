/* The calls, each with all that document 01 and include/pagyolint.h say of it looked at. */
#ifndef CALLS_H
#define CALLS_H

#include "bytes.h"

/* Each makes its call on the session, and leaves there what the call left. where picks the places of the slices (lent.h). With a line its
   tokens are looked at too. */
void try_fresh(struct bytes *session, unsigned where);
void try_line(struct bytes *session, const struct bytes *line, const struct bytes *store, unsigned where);
void try_alias(struct bytes *session, const struct bytes *word, uint64_t command, unsigned where);
void try_remembered(const struct bytes *session, const struct bytes *store, unsigned where);
void try_tokens(const struct bytes *session, const struct bytes *line, const struct bytes *store, unsigned where);

/* Calls without a session. */
void try_refusal_text(uint64_t refusal, const struct bytes *store, unsigned where);
void try_command_name(uint64_t command, const struct bytes *store, unsigned where);
void try_version(void);

#endif
