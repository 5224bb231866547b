start("page", 1);
	show ( $title,  'Hello, world' );

log();log("done", 42);
