/* The two lengths of a request, asked by each of the 256 type bytes, against the tables of documents 01 and 02. */
#include "expect.h"
#include "viommu.h"

struct lengths {
    size_t readable;
    size_t writable;
};

/* Types 0 to 5; "any other type gets 0 and 0". */
static const struct lengths by_type[] = {{0, 0}, {20, 4}, {20, 4}, {36, 4}, {28, 4}, {72, 132}};

int main(void)
{
    for (unsigned type = 0; type < 256; type++) {
        struct lengths wanted = by_type[type <= 5 ? type : 0];
        EXPECT(viommu_readable_length((uint8_t)type) == wanted.readable);
        EXPECT(viommu_writable_length((uint8_t)type) == wanted.writable);
    }
    puts("lengths: 256 type bytes");
    return 0;
}
