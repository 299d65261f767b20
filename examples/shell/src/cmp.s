/ cmp -- where two files differ first: the byte, from 0 on, and both bytes, all in octal; nothing where they are the same

	mov	(sp)+,r5
	tst	(sp)+
	cmp	r5,$3
	bne	usage
	mov	(sp)+,0f
	mov	(sp)+,1f
	sys	open; 0:0; 0
	bes	none
	mov	r0,one
	sys	open; 1:0; 0
	bes	none
	mov	r0,two
loop:
	mov	one,r0
	sys	read; buffer1; 512.
	bes	none
	mov	r0,r4
	mov	two,r0
	sys	read; buffer2; 512.
	bes	none
	mov	r0,r3
	mov	r4,r2			/ r2 is the lesser number
	cmp	r3,r4
	bhis	1f
	mov	r3,r2
1:
	mov	$buffer1,r0
	mov	$buffer2,r1
	tst	r2
	beq	ends
2:
	cmpb	(r0)+,(r1)+
	bne	differ
	add	$1,place+2
	adc	place
	sob	r2,2b
	cmp	r3,r4
	beq	loop
ends:
	cmp	r3,r4
	beq	3f
	mov	$short,r0
	jmp	fail
3:
	clr	r0
	sys	exit
differ:
	movb	-(r0),byte1
	movb	-(r1),byte2
	mov	$out,r5
	mov	place,r2
	mov	place+2,r3
	jsr	pc,octal
	movb	$40,(r5)+
	clr	r2
	mov	byte1,r3
	jsr	pc,octal
	movb	$40,(r5)+
	clr	r2
	mov	byte2,r3
	jsr	pc,octal
	movb	$'\n,(r5)+
	clrb	(r5)
	mov	$out,r0
	jmp	fail
none:
	mov	$noopen,r0
	jmp	fail
usage:
	mov	$use,r0
	jmp	fail

/ octal -- the number r2, r3 to r5, without zeros in front
octal:
	mov	r3,r1
	bic	$177770,r1
	ashc	$-3,r2
	bic	$160000,r2
	mov	r2,r0
	bis	r3,r0
	beq	1f
	mov	r1,-(sp)
	jsr	pc,octal
	mov	(sp)+,r1
1:
	add	$'0,r1
	movb	r1,(r5)+
	rts	pc

noopen:	<cmp: cannot open\n\0>
use:	<usage: cmp file1 file2\n\0>
short:	<cmp: one file is the beginning of the other\n\0>
	.even
	.bss
one:	.=.+2
two:	.=.+2
place:	.=.+4
byte1:	.=.+2
byte2:	.=.+2
out:	.=.+40.
buffer1: .=.+512.
buffer2: .=.+512.
