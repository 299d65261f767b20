/ ls -- what is in directories, by name; of a file its name
/ -a: also the names that begin with a point. -l: the mode, the links, the owner and the size before each.

	mov	(sp)+,argc
	tst	(sp)+
	dec	argc
	beq	3f
	mov	(sp),r0
	cmpb	(r0)+,$'-
	bne	3f
	tst	(sp)+
	dec	argc
1:
	movb	(r0)+,r1
	beq	3f
	cmp	r1,$'a
	bne	2f
	inc	aflag
2:
	cmp	r1,$'l
	bne	1b
	inc	lflag
	br	1b
3:
	mov	argc,many
	bne	1f
	mov	$point,name
	jsr	pc,list
	br	2f
1:
	mov	(sp)+,name
	jsr	pc,list
	dec	argc
	bne	1b
2:
	clr	r0
	sys	exit

/ list -- the file or the directory that name is
list:
	mov	name,0f
	sys	stat; 0:0; status
	bes	2f
	mov	status+4,r0
	bic	$117777,r0
	cmp	r0,$40000
	beq	direct
	jsr	pc,long
	mov	name,r0
1:
	movb	(r0)+,(r5)+
	bne	1b
	dec	r5
	jmp	flush
2:
	mov	name,r0
	mov	$1,r1
	jsr	pc,puts
	mov	$lost,r0
	mov	$1,r1
	jmp	puts

/ direct -- the entries of the directory that name is; each time the first name behind the last that was shown
direct:
	mov	name,0f
	sys	open; 0:0; 0
	bes	2b
	mov	r0,r4
	sys	read; entries; 8192.
	bes	2b
	add	$entries,r0
	mov	r0,end
	mov	r4,r0
	sys	close
	cmp	many,$2
	blt	1f
	mov	name,r0			/ of several directories each has its name before it
	mov	$1,r1
	jsr	pc,puts
	mov	$colon,r0
	mov	$1,r1
	jsr	pc,puts
1:
	mov	$before,r0
	mov	$7,r1
2:
	clr	(r0)+
	sob	r1,2b
3:
	jsr	pc,next
	beq	4f
	mov	best,r0
	mov	$before,r1
	jsr	pc,copy
	jsr	pc,entry
	br	3b
4:
	rts	pc

/ next -- best is the entry of the least name above before; Z is set where there is none
next:
	clr	best
	mov	$entries,r0
1:
	cmp	r0,end
	bhis	4f
	tst	(r0)+			/ r0 is at the name
	beq	3f
	tst	aflag
	bne	2f
	cmpb	(r0),$'.
	beq	3f
2:
	mov	$before,r3
	jsr	pc,compare
	blos	3f
	mov	best,r3
	beq	5f
	jsr	pc,compare
	bhis	3f
5:
	mov	r0,best
3:
	add	$14.,r0
	br	1b
4:
	tst	best
	rts	pc

/ compare -- the codes are those of the names at r0 and r3, without signs
compare:
	mov	r0,r2
	mov	$14.,r4
1:
	cmpb	(r2)+,(r3)+
	bne	2f
	sob	r4,1b
2:
	rts	pc

/ copy -- the 14 bytes at r0 to r1
copy:
	mov	$14.,r2
1:
	movb	(r0)+,(r1)+
	sob	r2,1b
	rts	pc

/ entry -- the line of the entry before
entry:
	tst	lflag
	beq	2f
	mov	name,r0			/ its path: the directory, a slash, the name
	mov	$path,r1
1:
	movb	(r0)+,(r1)+
	bne	1b
	movb	$57,-1(r1)
	mov	$before,r0
	jsr	pc,copy
	clrb	(r1)
	sys	stat; path; status
	bes	4f			/ its inode is free
2:
	jsr	pc,long
	mov	$before,r0
	mov	$14.,r1
3:
	movb	(r0)+,(r5)+
	beq	5f
	sob	r1,3b
	br	flush
5:
	dec	r5
	br	flush
4:
	rts	pc

/ flush -- a new line, and the line from out to r5 to the standard output
flush:
	movb	$'\n,(r5)+
	mov	r5,0f
	sub	$out,0f
	mov	$1,r0
	sys	write; out; 0:0
	rts	pc

/ long -- a line begins, with -l by what status tells; r5 is behind it
long:
	mov	$out,r5
	tst	lflag
	beq	4b
	mov	status+4,r1
	mov	r1,r0
	swab	r0
	asr	r0
	asr	r0
	asr	r0
	asr	r0
	asr	r0
	bic	$177774,r0		/ the two bits of the type
	movb	kinds(r0),(r5)+
	mov	$400,r2
	mov	$rwx,r3
1:
	movb	(r3)+,(r5)
	bit	r2,r1
	bne	2f
	movb	$'-,(r5)
2:
	inc	r5
	asr	r2
	bne	1b
	movb	status+6,r1		/ links
	mov	$three,r3
	jsr	pc,byte
	movb	status+7,r1		/ owner
	mov	$three,r3
	jsr	pc,byte
	bit	$20000,status+4
	bne	3f
	movb	status+9.,r0		/ the high byte of the size
	bic	$177400,r0
	mov	status+10.,r1
	mov	$eight,r3
	jsr	pc,digits
	br	6f
3:
	movb	status+13.,r1		/ of a device its two numbers
	mov	$five,r3
	jsr	pc,byte
	movb	$',,(r5)+
	movb	status+12.,r1
	mov	$three,r3
	jsr	pc,byte
6:
	movb	$40,(r5)+
	rts	pc

/ digits -- the number r0, r1 of two words in decimal, by the powers of ten at r3; byte -- the low byte of r1
byte:
	bic	$177400,r1
	clr	r0
digits:
	mov	$40,r4			/ what is written for a 0: a blank up to the first digit
1:
	clr	r2
2:
	sub	2(r3),r1
	sbc	r0
	sub	(r3),r0
	bmi	3f
	inc	r2
	br	2b
3:
	add	2(r3),r1
	adc	r0
	add	(r3),r0
	cmp	r3,$one
	beq	4f
	tst	r2
	beq	5f
4:
	mov	$60,r4
5:
	bis	r4,r2
	movb	r2,(r5)+
	cmp	(r3)+,(r3)+
	cmp	r3,$one
	blos	1b
	rts	pc

eight:	230; 113200; 17; 41100; 1; 103240
five:	0; 23420; 0; 1750
three:	0; 144; 0; 12
one:	0; 1
kinds:	<-cdb>
rwx:	<rwxrwxrwx>
point:	<.\0>
colon:	<:\n\0>
lost:	< not found\n\0>
	.even

	.bss
argc:	.=.+2
many:	.=.+2
aflag:	.=.+2
lflag:	.=.+2
name:	.=.+2
best:	.=.+2
end:	.=.+2
before:	.=.+14.			/ the last name that was shown
status:	.=.+36.
out:	.=.+300.
path:	.=.+300.
entries: .=.+8192.
