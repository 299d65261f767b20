/ After three seconds makes a file; with a sync, or without one. Then it waits for ever.
	mov	$3,r0
	sys	sleep
	sys	creat; name; 644
	sys	sync
	br	.
name:	</new\0>
