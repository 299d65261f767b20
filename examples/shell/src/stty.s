/ stty -- the modes of the terminal that is the standard output; without an argument it says what they are

	mov	(sp)+,r5
	tst	(sp)+
	mov	$1,r0
	sys	gtty; modes
	bec	1f
	mov	$none,r0
	jmp	fail
1:
	dec	r5
	bne	next
	jmp	report
next:
	mov	(sp)+,r1
	mov	$table,r2
1:
	tst	(r2)
	beq	bad
	mov	(r2)+,r0		/ the word, and what it clears and sets
	jsr	pc,equal
	beq	2f
	cmp	(r2)+,(r2)+
	br	1b
2:
	bic	(r2)+,modes+4
	bis	(r2)+,modes+4
more:
	dec	r5
	bne	next
	mov	$1,r0
	sys	stty; modes
	clr	r0
	sys	exit
bad:
	mov	$modes+2,r3		/ erase and kill have a character after them
	mov	$erase,r0
	jsr	pc,equal
	beq	1f
	inc	r3
	mov	$kill,r0
	jsr	pc,equal
	bne	2f
1:
	dec	r5
	beq	2f
	mov	(sp)+,r0
	movb	(r0),(r3)
	br	more
2:
	mov	r1,r0
	mov	$1,r1
	jsr	pc,puts
	mov	$what,r0
	jmp	fail

report:
	movb	modes+2,char1
	movb	modes+3,char2
	mov	$chars,r0
	mov	$1,r1
	jsr	pc,puts
	mov	$table,r2
1:
	tst	(r2)
	beq	3f
	mov	2(r2),r0		/ said is what is so: its flag is set or clear
	mov	modes+4,r1
	bic	r0,r1
	mov	modes+4,r3
	sub	r1,r3			/ the flag as it is
	cmp	r3,4(r2)
	bne	2f
	mov	(r2),r0
	mov	$1,r1
	jsr	pc,puts
	mov	$blank,r0
	mov	$1,r1
	jsr	pc,puts
2:
	add	$6,r2
	br	1b
3:
	mov	$newline,r0
	mov	$1,r1
	jsr	pc,puts
	clr	r0
	sys	exit

/ equal -- Z is set where the texts at r0 and r1 are the same; r1 stays
equal:
	mov	r1,r4
1:
	cmpb	(r0),(r4)+
	bne	2f
	tstb	(r0)+
	bne	1b
2:
	rts	pc

erase:	<erase\0>
kill:	<kill\0>
none:	<stty: no terminal\n\0>
what:	<: unknown mode\n\0>
blank:	< \0>
newline: <\n\0>
t1:	<-tabs\0>
t2:	<tabs\0>
t3:	<lcase\0>
t4:	<-lcase\0>
t5:	<echo\0>
t6:	<-echo\0>
t7:	<-nl\0>
t8:	<nl\0>
t9:	<raw\0>
t10:	<-raw\0>
	.even
table:	t1; 2; 2; t2; 2; 0; t3; 4; 4; t4; 4; 0; t5; 10; 10; t6; 10; 0; t7; 20; 20; t8; 20; 0; t9; 40; 40; t10; 40; 0; 0
	.data
chars:	<erase = '>
char1:	<#'; kill = '>
char2:	<@'\n\0>
	.even
	.bss
modes:	.=.+6
