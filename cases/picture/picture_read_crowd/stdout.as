../../../docs/pictures/read_crowd.svg
