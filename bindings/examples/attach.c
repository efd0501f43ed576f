/* attach: writes an image with a signature in place of those that it has, and the checksum with it.
 *
 *     attach FILE PKCS7 OUT    PKCS7 is signed data in DER, as openssl and osslsigncode write it; OUT must not exist */
#include "pe.h"
#include "example.h"

#include <stdio.h>
#include <string.h>

enum { SIZE_OF_HEADER = 8 };    /* WIN_CERTIFICATE: length, WIN_CERT_REVISION_2_0, WIN_CERT_TYPE_PKCS_SIGNED_DATA */

static uint8_t file[1 << 26], certificate[1 << 20], written[(1 << 26) + (1 << 21)];

/* The entry of a certificate table with the signature that stands after the room for its header. Returns its length. */
static size_t entry_of(size_t signature_length)
{
    uint32_t length = (uint32_t)(SIZE_OF_HEADER + signature_length);
    const uint8_t header[SIZE_OF_HEADER] = {(uint8_t)length, (uint8_t)(length >> 8), (uint8_t)(length >> 16),
                                            (uint8_t)(length >> 24), 0, 2, 2, 0};
    memcpy(certificate, header, sizeof header);
    return length;
}

int main(int argc, char **argv)
{
    if (argc != 4)
        return usage("attach FILE PKCS7 OUT");
    size_t length = read_file(argv[1], file, sizeof file);
    size_t entry = entry_of(read_file(argv[2], certificate + SIZE_OF_HEADER, sizeof certificate - SIZE_OF_HEADER));
    pe_c_image_info image = PE_C_EMPTY;
    uint64_t end = 0;
    uint32_t result = pe_c_image(file, length, PE_C_PERMISSIVE, &image);
    /* The call needs no section headers. */
    pe_c_view view = {file, length, &image, NULL, 0, NULL, 0};
    if (result == PE_C_DONE)
        result = pe_c_attach(&view, certificate, entry, PE_C_IN_PLACE, written, sizeof written, &end);
    if (result != PE_C_DONE)
        return status_of(result);
    return write_file(argv[3], written, (size_t)end);
}
