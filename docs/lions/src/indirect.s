/ The indirect call, of a write, of itself, and of a word that is no call.
	sys	open; tty; 2
	clr	r0
	sys	indir; word
	mov	$104400,word		/ indir itself
	sys	indir; word
	mov	$240,word		/ an instruction that does nothing
	sys	indir; word
	sys	exit
tty:	</dev/tty8\0>
text:	<hi\n>
	.even
word:	sys	write; text; 3
