../../../docs/pictures/write_burst.svg
