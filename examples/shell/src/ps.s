/ ps -- the processes, of which a program sees only itself: its number, its user, and its words

	mov	(sp)+,r5
	mov	$head,r0
	mov	$1,r1
	jsr	pc,puts
	sys	getpid
	jsr	pc,number
	sys	getuid
	bic	$177400,r0		/ the real user; the other byte has the effective one
	jsr	pc,number
1:
	mov	$blank,r0
	mov	$1,r1
	jsr	pc,puts
	mov	(sp)+,r0
	mov	$1,r1
	jsr	pc,puts
	sob	r5,1b
	mov	$line,r0
	mov	$1,r1
	jsr	pc,puts
	clr	r0
	sys	exit

/ number -- r0 in five columns
number:
	mov	$digits+5,r4
	mov	r0,r1
1:
	clr	r0
	div	$10.,r0
	add	$'0,r1
	movb	r1,-(r4)
	mov	r0,r1
	bne	1b
2:
	cmp	r4,$digits
	blos	3f
	movb	$40,-(r4)
	br	2b
3:
	mov	r4,r0
	mov	$1,r1
	jmp	puts

head:	<  pid  uid command\n\0>
blank:	< \0>
line:	<\n\0>
digits:	<     \0>
	.even
