package paper

// Margin is in characters.
const Margin = 2
