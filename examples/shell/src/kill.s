/ kill -- sends a signal to processes: kill [-signal] process ..
	mov	(sp)+,r5
	tst	(sp)+
	dec	r5
	beq	usage
	mov	$9.,signo
	cmpb	*(sp),$'-
	bne	loop
	mov	(sp)+,r4
	inc	r4
	jsr	pc,number
	mov	r3,signo
	dec	r5
	beq	usage
loop:
	mov	(sp)+,r4
	mov	r4,name
	jsr	pc,number
	mov	r3,r0
	sys	kill; signo: 9.
	bec	1f
	mov	name,r0
	mov	$2,r1
	jsr	pc,puts
	mov	$cannot,r0
	mov	$2,r1
	jsr	pc,puts
1:
	dec	r5
	bne	loop
	clr	r0
	sys	exit

usage:
	mov	$text,r0
	jmp	fail

/ number -- the digits at r4 to r3; anything else isn't a number of a process
number:
	clr	r3
	tstb	(r4)
	beq	3f
1:
	movb	(r4)+,r0
	beq	2f
	sub	$'0,r0
	blo	3f
	cmp	r0,$9.
	bhi	3f
	mul	$10.,r3
	add	r0,r3
	br	1b
2:
	rts	pc
3:
	mov	$text,r0
	jmp	fail

text:	<kill [-signal] process ..\n\0>
cannot:	<: not found\n\0>
	.bss
name:	.=.+2
