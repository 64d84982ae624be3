# src/layout.rs: the day before the month in the details
s/\[date\.year, date\.month, date\.day,/[date.year, date.day, date.month,/
