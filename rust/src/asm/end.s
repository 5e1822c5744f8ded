/* What the compiler assembles after these files begins in the section of code, and may have the same macros. */
	.text
	.purgem hidden
	.purgem function
	.purgem end
	.purgem variable
	.purgem constant
	.purgem adrp_label
	.purgem add_label
	.purgem ldr_label
