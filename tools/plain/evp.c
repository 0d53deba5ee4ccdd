#include "shake.h"

#include <openssl/evp.h>
#include <stdio.h>
#include <stdlib.h>

static EVP_MD_CTX *context, *begun;

static void require(int good)
{
    if (!good) {
        fputs("OpenSSL's SHAKE256 failed\n", stderr);
        exit(2);
    }
}

/* Looking the algorithm up costs more than hashing a short string, so it is done once. */
void evp_start(void)
{
    context = EVP_MD_CTX_new();
    begun = EVP_MD_CTX_new();
    require(context != NULL && begun != NULL);
    require(EVP_DigestInit_ex(context, EVP_shake256(), NULL) == 1);
    require(EVP_DigestInit_ex(begun, EVP_shake256(), NULL) == 1);
}

void evp_digest(const uint8_t *string, size_t length, uint8_t digest[DIGEST_BYTES])
{
    if (context == NULL)
        evp_start();
    require(EVP_DigestInit_ex(context, NULL, NULL) == 1);
    require(EVP_DigestUpdate(context, string, length) == 1);
    require(EVP_DigestFinalXOF(context, digest, DIGEST_BYTES) == 1);
}

void evp_begin(const uint8_t *string, size_t length)
{
    if (context == NULL)
        evp_start();
    require(EVP_DigestInit_ex(begun, NULL, NULL) == 1);
    require(EVP_DigestUpdate(begun, string, length) == 1);
}

void evp_count(uint32_t counter, uint8_t *out, size_t bytes)
{
    require(EVP_MD_CTX_copy_ex(context, begun) == 1);
    require(EVP_DigestUpdate(context, &counter, sizeof counter) == 1);
    require(EVP_DigestFinalXOF(context, out, bytes) == 1);
}
