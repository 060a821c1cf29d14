"""Class tables: made of counts, compared, checked, and written for Scudo."""
