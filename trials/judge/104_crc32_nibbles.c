#include "leafrunt.h"

SEC("count") u64 crc32_nibbles(const struct datagram *d)
{
	static const u32 table[16] = {
		0x00000000, 0x1db71064, 0x3b6e20c8, 0x26d930ac,
		0x76dc4190, 0x6b6b51f4, 0x4db26158, 0x5005713c,
		0xedb88320, 0xf00f9344, 0xd6d6a3e8, 0xcb61b38c,
		0x9b64c2b0, 0x86d3d2d4, 0xa00ae278, 0xbdbdf21c,
	};
	u32 crc = 0xffffffff;
	u32 i;

	if (d->length < 32)
		return 0;
	for (i = 0; i < 32; i++) {
		u32 byte = packet_byte(i);
		crc = table[(crc ^ byte) & 15] ^ crc >> 4;
		crc = table[(crc ^ byte >> 4) & 15] ^ crc >> 4;
	}
	cells()[18] = (u32)~crc;
	return 0;
}
