"""Belt sheets, beltbeam's reports and plans of both."""
