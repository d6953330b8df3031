/* Prices by the calendar: working hours, holidays and the change freeze. */
#include "leafrunt.h"

#define WITHHELD 16777215

enum { JANUARY = 1, FEBRUARY, MAY = 5, DECEMBER = 12 };

struct date {
	u32 year, month, day, weekday, hour;	/* weekday 0 is a Sunday */
};

static inline struct date date_of(u64 moment)
{
	struct date date;
	u32 days = moment / 86400;
	u32 era, of_era, year, of_year, month;

	date.hour = moment % 86400 / 3600;
	date.weekday = (days + 4) % 7;

	/* Years begin on 1 March here, and eras of 400 years on 1 March 0000. */
	days += 719468;
	era = days / 146097;
	of_era = days % 146097;
	year = (of_era - of_era / 1460 + of_era / 36524 - of_era / 146096) / 365;
	of_year = of_era - (365 * year + year / 4 - year / 100);
	month = (5 * of_year + 2) / 153;
	date.day = of_year - (153 * month + 2) / 5 + 1;
	date.month = month < 10 ? month + 3 : month - 9;
	date.year = 400 * era + year + (date.month <= FEBRUARY);
	return date;
}

static inline int is(const struct date *date, u32 month, u32 day)
{
	return date->month == month && date->day == day;
}

static inline int holiday(const struct date *date)
{
	return is(date, JANUARY, 1) || is(date, MAY, 1) || is(date, DECEMBER, 25) || is(date, DECEMBER, 26);
}

static inline int freeze(const struct date *date)
{
	return (date->month == DECEMBER && date->day >= 20) || (date->month == JANUARY && date->day <= 5);
}

SEC("price") u64 calendar(const struct destination *d)
{
	struct date date = date_of(d->moment);
	u64 metric = d->metric;

	if (metric >= WITHHELD || (is(&date, FEBRUARY, 29) && d->tag == 29))
		return WITHHELD;
	if (date.weekday >= 1 && date.weekday <= 5 && !holiday(&date)) {
		if (date.hour >= 8 && date.hour < 18)
			metric += 300;
		else if (date.hour >= 18 && date.hour < 22)
			metric += 100;
	}
	if (freeze(&date) && metric < 500)
		metric = 500;
	return metric < WITHHELD ? metric : WITHHELD - 1;
}
