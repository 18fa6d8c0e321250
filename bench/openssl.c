/* OpenSSL's check of a signature by RSASSA-PKCS1-v1_5 with SHA-256, the hash handed in, for the rows of signatures. */
#include <openssl/evp.h>
#include <openssl/rsa.h>
#include <stddef.h>

/* What checks signatures of the key in this DER RSAPublicKey, or NULL. It is never freed. */
void *razidkot_bench_openssl_read(const unsigned char *data, size_t length) {
    EVP_PKEY *key = d2i_PublicKey(EVP_PKEY_RSA, NULL, &data, (long)length);
    EVP_PKEY_CTX *context = EVP_PKEY_CTX_new(key, NULL);
    EVP_PKEY_free(key);
    if (context && EVP_PKEY_verify_init(context) == 1 && EVP_PKEY_CTX_set_rsa_padding(context, RSA_PKCS1_PADDING) == 1 &&
        EVP_PKEY_CTX_set_signature_md(context, EVP_sha256()) == 1) {
        return context;
    }
    EVP_PKEY_CTX_free(context);
    return NULL;
}

/* 1 for a good signature: the key has been read, and what OpenSSL keeps of it is there. */
int razidkot_bench_openssl_verify(void *context, const unsigned char *hash, size_t hash_length, const unsigned char *signature,
                                  size_t signature_length) {
    return EVP_PKEY_verify(context, signature, signature_length, hash, hash_length) == 1;
}

/* The same with the key read for this one signature. */
int razidkot_bench_openssl_read_and_verify(const unsigned char *data, size_t length, const unsigned char *hash,
                                           size_t hash_length, const unsigned char *signature, size_t signature_length) {
    void *context = razidkot_bench_openssl_read(data, length);
    int is_good = context && razidkot_bench_openssl_verify(context, hash, hash_length, signature, signature_length);
    EVP_PKEY_CTX_free(context);
    return is_good;
}
