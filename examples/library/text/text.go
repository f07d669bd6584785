package text

// Wide is the length of the widest line.
const Wide = 80
