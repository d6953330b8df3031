#include "leafrunt.h"

SEC("count") u64 crc16_bits(const struct datagram *d)
{
	u16 crc = 0xffff;

	if (d->length < 24)
		return 0;
	for (int i = 0; i < 24; i++) {
		crc ^= packet_byte(i) << 8;
		for (int bit = 0; bit < 8; bit++) {
			if (crc & 0x8000)
				crc = crc << 1 ^ 0x1021;
			else
				crc <<= 1;
		}
	}
	cells()[19] = crc;
	return 0;
}
