// Package lib keeps the old names.
package lib

import (
	"example.com/lib/paper"
	"example.com/lib/text"
)

const (
	// Deprecated: use text.Wide.
	//go:fix inline
	MaxWidth = text.Wide

	// Deprecated: use paper.Margin.
	//go:fix inline
	Margin = paper.Margin

	// Deprecated: use text.Wide.
	//go:fix inline
	Width = MaxWidth
)

// Version is kept.
const Version = 3
