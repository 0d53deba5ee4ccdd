/* What several entries are lent of an instance `a` (instance.h), one after the other. */
#ifndef LENT_SLICES_H
#define LENT_SLICES_H

#define SIZES_LENT a->s.h, a->s.mu, a->s.nu, a->s.w, a->s.l, a->s.eta, a->s.beta
#define WORDS                                                                                      \
    a->coefficients, a->coefficient_count, a->tails, a->tail_count, a->blinds, a->blind_count,     \
        a->masks, a->mask_count
#define TABLE a->table, a->table_count
#define NONCES a->nonces, a->nonce_bytes
#define SALT a->salt, a->salt_bytes
#define TREE a->tree, a->tree_bytes
#define OLDER_TREE a->older_tree, a->tree_bytes
#define QUESTION a->question, a->question_bytes
#define OLDER_QUESTION a->older_question, a->question_bytes - SALT_BYTES
#define REPLY a->reply, a->reply_bytes
#define PROOF_QUESTION a->proof_question, a->proof_question_bytes
#define OLDER_PROOF_QUESTION a->older_proof_question, a->proof_question_bytes - SALT_BYTES
#define PROOF a->proof, a->proof_bytes

#endif
