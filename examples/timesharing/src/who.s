/ who -- who is logged in, on which line, and since when, by /etc/utmp

	sys	open; utmp; 0
	bes	leave
	mov	r0,file
loop:
	mov	file,r0
	sys	read; record; 16.
	bes	leave
	cmp	r0,$16.
	bne	leave
	tstb	record
	beq	loop
	mov	$record,r1
	mov	$line,r2
1:
	movb	(r1)+,(r2)+
	beq	2f
	cmp	r2,$line+8.
	bne	1b
	br	4f
2:
	dec	r2
3:
	movb	$40,(r2)+
	cmp	r2,$line+8.
	bne	3b
4:
	movb	record+8.,line+11.
	mov	record+10.,r0
	mov	record+12.,r1
	mov	r1,r4
	bic	$!77,r4
	ashc	$-6,r0
	div	$1350.,r0		/ a day is 1350 times 64 seconds
	mov	r1,r2
	mul	$64.,r2
	add	r4,r3
	adc	r2
	div	$60.,r2
	mov	r2,r1			/ minutes
	clr	r0
	div	$60.,r0
	mov	r0,r5
	mov	$line+18.,r2
	jsr	pc,two
	mov	r5,r1
	mov	$line+15.,r2
	jsr	pc,two
	mov	$line,r0
	mov	$1,r1
	jsr	pc,puts
	br	loop
leave:
	clr	r0
	sys	exit

/ two -- the number r1 in two figures, up to the byte before r2
two:
	jsr	pc,1f
1:
	clr	r0
	div	$10.,r0
	add	$'0,r1
	movb	r1,-(r2)
	mov	r0,r1
	rts	pc

utmp:	</etc/utmp\0>
line:	<nnnnnnnnttyx hh:mm\n\0>
	.even
	.bss
file:	.=.+2
record:	.=.+16.
