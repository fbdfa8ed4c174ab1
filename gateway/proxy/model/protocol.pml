/* The protocol of escrowd-proxy for one row, as PROTOCOL.md has it. Each transition is one event. The assertions of check()
 * hold after each of them. check.py takes rules away by their names, as -DEARLY.
 *
 * A change is a number. A set of clients is a mask, client c being the bit 1 << c. Each client has one transaction with one
 * note: one that is granted, which may be direct, or a change without a reservation (rule 16). Values must not fall below 0:
 * the only CHECK. -DHELD leaves out that rows are left and swept, and so changes without a reservation.
 */

#ifndef CLIENTS      /* 2 to 4 */
#define CLIENTS 2
#endif
#ifndef CRASHES      /* how often PostgreSQL may crash */
#define CRASHES 1
#endif
#ifndef LOSSES       /* how often a proxy may die, or lose its keeper's backend */
#define LOSSES 1
#endif
#define EPOCHS (1 + CRASHES + LOSSES)
#define RECORDS (2 * CLIENTS + EPOCHS)

#define BIT(c) (1 << (c))
#define HAS(m, c) (((m) >> (c)) & 1)
#define FALL(c) ((change[c] < 0) * change[c])
#if CLIENTS == 2
#define ALL(f) (f(0) && f(1))
#define SUM(m) (HAS(m, 0) * change[0] + HAS(m, 1) * change[1])
#define FALLS(m) (HAS(m, 0) * FALL(0) + HAS(m, 1) * FALL(1))
#elif CLIENTS == 3
#define ALL(f) (f(0) && f(1) && f(2))
#define SUM(m) (HAS(m, 0) * change[0] + HAS(m, 1) * change[1] + HAS(m, 2) * change[2])
#define FALLS(m) (HAS(m, 0) * FALL(0) + HAS(m, 1) * FALL(1) + HAS(m, 2) * FALL(2))
#else
#define ALL(f) (f(0) && f(1) && f(2) && f(3))
#define SUM(m) (HAS(m, 0) * change[0] + HAS(m, 1) * change[1] + HAS(m, 2) * change[2] + HAS(m, 3) * change[3])
#define FALLS(m) (HAS(m, 0) * FALL(0) + HAS(m, 1) * FALL(1) + HAS(m, 2) * FALL(2) + HAS(m, 3) * FALL(3))
#endif

/* What a proxy knows of a client's transaction. */
#define IDLE 0
#define NOTING 1     /* granted; the note is sent */
#define NOTED 2      /* the note is answered: its id is known */
#define ENDING 3     /* COMMIT or ROLLBACK is sent */
#define DOUBTFUL 4   /* the connection was lost behind a COMMIT that was sent */
#define DONE 5

/* Where a client's backend is. From WROTE to LOGGED it holds the lock of the journal. */
#define NONE 0
#define HAS_NOTE 1   /* the note is in its socket */
#define TESTED 2     /* without rule 7: tested, not yet written */
#define WROTE 3      /* the row of the journal is written, the epoch not yet tested */
#define OPEN 4       /* the note is done */
#define HAS_COMMIT 5 /* COMMIT is in its socket */
#define FOLDED 6     /* its own fold is done, and holds the row's lock */
#define LOGGED 7     /* its commit record is in the log; it is not visible */
#define COMMITTED 8
#define ABORTED 9

/* What a proxy is. One that dies is started again, as STANDBY. */
#define STANDBY 0
#define OWNING 1     /* it has OWNER, and the lock of its epoch */
#define RAISED 2     /* its epoch is set */
#define CLEAR 3      /* no transaction of an older epoch holds a journal */
#define SERVING 4    /* the row is loaded */
#define LEAVING 5    /* the server has the row no longer; that the mark is to go is in a socket */

/* PostgreSQL, as later snapshots see it. */
short row;           /* D */
byte journal;        /* J */
byte committed;      /* whose transactions are committed */
byte epoch;          /* 0: nobody's */
byte live;           /* the epoch whose lock is held, or 0 */
byte owner;          /* the proxy that holds OWNER, plus 1, or 0 */
byte locker;         /* who holds the row's lock: a client plus 1, a folder plus 10, or 0 */
byte mark;           /* the epoch whose owner holds the row, or 0. A crash needs none: it ends the epoch */
byte late;           /* the epoch of a leave in a socket whose connection is lost, or 0 */
bit later;           /* whether the row was loaded since that was sent */
byte life;           /* how often it has crashed */
byte losses;
byte issued;         /* the last epoch that was chosen */
bit sync;            /* synchronous_commit */

/* The log: what is durable, and the records behind it. A crash leaves any first of them. */
short durable_row;
byte durable_journal, durable_committed, durable_epoch;
byte records;
typedef Record { short rise; byte removed; byte added; byte done; byte raised };
Record log[RECORDS];

typedef Client {
	byte known; byte backend; bit proxy; byte epoch; byte life; byte took;
	bit folds;       /* COMMIT comes with an own fold, or the fold is done: then it has the row's lock */
	bit here;        /* it changes the row without a reservation */
	bit cut;         /* the connection is lost */
	bit answered;    /* the client has heard that it is committed */
#ifdef SNAPSHOT
	byte seen;       /* the epoch as its snapshot shows it */
#endif
#ifdef UNANSWERED
	bit behind;      /* COMMIT is in the socket, behind the note */
#endif
};
Client client[CLIENTS];
short change[CLIENTS];
typedef Proxy {
	byte state; byte epoch; byte life; short value; byte reserved; byte folding;
#ifdef NO_LOCK
	short target;
#endif
};
Proxy proxy[2];
short start;

#define IS_OWNER(p) (owner == 1 + (p) && proxy[p].life == life)
#define LETS_GO(c) (client[c].backend < WROTE || client[c].backend > LOGGED)
#define MAY_COMMIT(c) (client[c].backend >= HAS_COMMIT && client[c].backend <= LOGGED)
#define COUNTS(c, p) (!MAY_COMMIT(c) || client[c].here || client[c].epoch != proxy[p].epoch || HAS(proxy[p].reserved, c))
#define COUNTS_0(c) COUNTS(c, 0)
#define COUNTS_1(c) COUNTS(c, 1)
#define KNOWS(p) (row + SUM(journal) == proxy[p].value + SUM(proxy[p].reserved & committed))
#define IS_CURRENT(p) (proxy[p].state == SERVING && IS_OWNER(p) && epoch == proxy[p].epoch)

inline check() {
	assert(row + SUM(journal) == start + SUM(committed));    /* each committed change once */
	assert(row + SUM(journal) >= 0);                         /* no CHECK is broken */
#ifndef TRUTH_ALONE
	assert(!IS_CURRENT(0) || (KNOWS(0) && ALL(COUNTS_0)));   /* the invariant */
	assert(!IS_CURRENT(1) || (KNOWS(1) && ALL(COUNTS_1)))
#endif
}

/* What a transaction's own fold takes out of the journal, beside its own row. */
inline take(c) {
#ifdef OWN_ROWS
	client[c].took = 0
#else
	client[c].took = journal
#endif
}

/* A fold that a CHECK refuses is the alarm. */
#define FITS(v) assert((v) >= 0)

/* Writes a record into the log, as long as a crash may come. */
inline record(r, d, a, c, e) {
	if
	:: life < CRASHES ->
		log[records].rise = r;
		log[records].removed = d;
		log[records].added = a;
		log[records].done = c;
		log[records].raised = e;
		records++
	:: else
	fi
}

/* Makes a change of the row and the journal visible. */
inline reveal(r, d, a, c) {
	row = row + (r);
	journal = (journal & ~(d)) | (a);
	committed = committed | (c)
}

/* Makes the first n records durable, and drops the others. */
inline keep(n, j) {
	j = 0;
	do
	:: j < records ->
		if
		:: j < n ->
			durable_row = durable_row + log[j].rise;
			durable_journal = (durable_journal & ~log[j].removed) | log[j].added;
			durable_committed = durable_committed | log[j].done;
			if
			:: log[j].raised -> durable_epoch = log[j].raised
			:: else
			fi
		:: else
		fi;
		log[j].rise = 0; log[j].removed = 0; log[j].added = 0; log[j].done = 0; log[j].raised = 0;
		j++
	:: else -> break
	od;
	records = 0;
	j = 0
}

/* Folds, under the row's lock. */
inline fold_all() {
	FITS(row + SUM(journal));
	if
	:: journal ->
		record(SUM(journal), journal, 0, 0, 0);
		reveal(SUM(journal), journal, 0, 0)
	:: else
	fi
}

/* The server grants if no choice of what is open breaks the CHECK. */
#define GRANTS(p, c) (proxy[p].state == SERVING && proxy[p].value + FALLS(proxy[p].reserved) + change[c] >= 0)

inline grant(p, c) {
	proxy[p].reserved = proxy[p].reserved | BIT(c);
	client[c].proxy = p;
	client[c].epoch = proxy[p].epoch;
	client[c].life = life;
	client[c].known = NOTING;
	client[c].backend = HAS_NOTE
}

/* A change without a reservation is sent. */
inline send_here(p, c) {
	client[c].here = 1;
	client[c].proxy = p;
	client[c].epoch = proxy[p].epoch;
	client[c].life = life;
	client[c].known = NOTING;
	client[c].backend = HAS_NOTE
}

/* The proxy has nothing more to do for a client's transaction. */
inline forget(c) {
	client[c].known = DONE;
	client[c].life = 0;
	client[c].cut = 0;
	client[c].proxy = 0;
	if
	:: client[c].backend >= COMMITTED -> client[c].epoch = 0; client[c].here = 0
	:: else
	fi
}

/* The proxy tells the server COMMIT. */
inline apply(c) {
	if
	:: client[c].here
	:: else ->
		proxy[client[c].proxy].value = proxy[client[c].proxy].value + change[c];
		proxy[client[c].proxy].reserved = proxy[client[c].proxy].reserved & ~BIT(c)
	fi
}

/* The proxy tells the server ROLLBACK. */
inline release(c) {
	proxy[client[c].proxy].reserved = proxy[client[c].proxy].reserved & ~BIT(c)
}

inline end_backend(c, outcome) {
	client[c].backend = outcome;
	if
	:: locker == 1 + c -> locker = 0
	:: else
	fi;
	client[c].folds = 0;
	client[c].took = 0;
#ifdef UNANSWERED
	client[c].behind = 0;
#endif
	if
	:: client[c].known == DONE -> client[c].epoch = 0; client[c].here = 0
	:: else
	fi
}

/* A proxy loses all that it knows, and its clients' connections. */
inline reset(p, j) {
	j = 0;
	do
	:: j < CLIENTS ->
		if
		:: client[j].proxy == p && client[j].known != IDLE && client[j].known != DONE -> forget(j)
		:: else
		fi;
		j++
	:: else -> break
	od;
	j = 0;
	proxy[p].value = 0;
	proxy[p].reserved = 0;
	proxy[p].epoch = 0;
	proxy[p].state = STANDBY
}

#if defined(NO_LIVE)
#define IS_LIVE(c) 1
#elif defined(FIXED_LOCK)
#define IS_LIVE(c) (owner != 0)
#else
#define IS_LIVE(c) (live == client[c].epoch)
#endif
#if defined(SNAPSHOT)
#define SHOWN(c) client[c].seen
#define HAS_BEGUN(c) (client[c].seen != 0)
#else
#define SHOWN(c) epoch
#define HAS_BEGUN(c) 1
#endif
#if defined(NO_TEST)
#define PASSES(c) IS_LIVE(c)
#else
#define PASSES(c) (SHOWN(c) == client[c].epoch && IS_LIVE(c))
#endif
#if defined(NO_LOCK)
#define CAN_LOCK 1
#else
#define CAN_LOCK (locker == 0)
#endif
#if defined(HERE_UNTESTED)
#define HERE_PASSES(c) 1
#else
#define HERE_PASSES(c) PASSES(c)
#endif
#if defined(HERE_UNMARKED)
#define IS_HELD 0
#else
#define IS_HELD (mark == epoch)
#endif
#if defined(LOAD_UNTESTED)
#define MAY_MARK(p) 1
#else
#define MAY_MARK(p) (epoch == proxy[p].epoch)
#endif
#if defined(LEAVE_ANY)
#define MAY_UNMARK(p) 1
#else
#define MAY_UNMARK(p) (mark == proxy[p].epoch)
#endif
#if defined(LEAVE_LATER)
#define IS_BEFORE 1
#else
#define IS_BEFORE (!later)
#endif
#if defined(SWEEP_UNTESTED)
#define MAY_SWEEP(p) 1
#else
#define MAY_SWEEP(p) (epoch == proxy[p].epoch)
#endif
#if defined(NO_WAIT)
#define MAY_LOAD 1
#else
#define MAY_LOAD ALL(LETS_GO)
#endif
#if defined(STALE_ID)
#define MAY_ASK(c) 1
#else
#define MAY_ASK(c) IS_OWNER(client[c].proxy)
#endif

proctype transaction(byte c) {
	byte j;
end:	do
	/* The proxy: grant, note, COMMIT. */
#ifdef SNAPSHOT
	:: d_step { client[c].known == IDLE && client[c].seen == 0 -> client[c].seen = epoch; check() }
#endif
	:: d_step { client[c].known == IDLE && HAS_BEGUN(c) && GRANTS(0, c) -> grant(0, c); check() }
	:: d_step { client[c].known == IDLE && HAS_BEGUN(c) && GRANTS(1, c) -> grant(1, c); check() }
#ifndef HELD
	/* The row is not loaded, since it is locked: a change without a reservation is sent. */
	:: d_step { client[c].known == IDLE && HAS_BEGUN(c) && proxy[0].state == CLEAR -> send_here(0, c); check() }
	:: d_step { client[c].known == IDLE && HAS_BEGUN(c) && proxy[1].state == CLEAR -> send_here(1, c); check() }
#endif
	:: d_step { client[c].known == NOTING && client[c].backend == OPEN && !client[c].cut ->
		client[c].known = NOTED;
		check() }
#ifdef UNANSWERED
	/* COMMIT is sent behind the note. A connection that is lost before the answer counts as rolled back. */
	:: d_step { client[c].known == NOTING && client[c].backend == HAS_NOTE && !client[c].cut && !client[c].behind ->
		client[c].behind = 1;
		check() }
	:: d_step { client[c].behind && client[c].backend == OPEN ->
		client[c].behind = 0;
		client[c].backend = HAS_COMMIT;
		check() }
	:: d_step { client[c].known == NOTING && client[c].backend > OPEN && client[c].backend != ABORTED && !client[c].cut ->
		client[c].known = ENDING;
		check() }
#endif
	:: d_step { client[c].known == NOTED && client[c].backend == OPEN && !client[c].cut ->
		client[c].known = ENDING;
		client[c].backend = HAS_COMMIT;
#ifdef EARLY
		apply(c);
#endif
		check() }
	:: d_step { client[c].known == NOTED && client[c].backend == OPEN && !client[c].cut && !client[c].folds ->
		client[c].known = ENDING;
		client[c].backend = HAS_COMMIT;
		client[c].folds = 1;
#ifdef EARLY
		apply(c);
#endif
		check() }
	:: d_step { client[c].known == NOTED && client[c].backend == OPEN && !client[c].cut ->
		client[c].known = ENDING;
		end_backend(c, ABORTED);
		check() }
	:: d_step { client[c].known == ENDING && client[c].backend == COMMITTED && !client[c].cut ->
#ifndef EARLY
		apply(c);
#endif
		client[c].answered = sync;
		forget(c);
		check() }
	:: d_step { (client[c].known == NOTING || client[c].known == NOTED || client[c].known == ENDING) &&
			client[c].backend == ABORTED && !client[c].cut ->
		release(c);
		forget(c);
		check() }
	/* The connection is lost. Only behind a COMMIT that was sent is the outcome open. */
	:: d_step { client[c].known == ENDING ->
		client[c].cut = 1;
#ifdef DROP_ON_LOSS
		release(c);
		forget(c);
#else
		client[c].known = DOUBTFUL;
#endif
		check() }
	:: d_step { client[c].known == NOTING || client[c].known == NOTED ->
		release(c);
		forget(c);
		check() }
	/* The outcome by id. */
#ifdef STALE_ID
	:: d_step { client[c].known == DOUBTFUL && client[c].backend == ABORTED && client[c].life != life ->
		apply(c);
		forget(c);
		check() }
#endif
	:: d_step { client[c].known == DOUBTFUL && MAY_ASK(c) && client[c].backend == COMMITTED ->
		apply(c);
		forget(c);
		check() }
	:: d_step { client[c].known == DOUBTFUL && MAY_ASK(c) && client[c].backend == ABORTED ->
		release(c);
		forget(c);
		check() }

	/* The backend. */
#ifdef TEST_FIRST
	:: d_step { client[c].backend == HAS_NOTE ->
		if
		:: PASSES(c) -> client[c].backend = TESTED
		:: else -> end_backend(c, ABORTED)
		fi;
		check() }
	:: d_step { client[c].backend == TESTED -> client[c].backend = OPEN; check() }
#else
	:: d_step { client[c].backend == HAS_NOTE && !client[c].here -> client[c].backend = WROTE; check() }
#ifndef NO_LOCK
	/* A direct note folds at once, if it gets the row's lock. A CHECK may refuse only what the proxy has given up. */
	:: d_step { client[c].backend == WROTE && !client[c].here && PASSES(c) && locker == 0 ->
		take(c);
		if
		:: row + SUM(client[c].took) + change[c] >= 0 ->
			locker = 1 + c;
			client[c].folds = 1;
			client[c].backend = OPEN
		:: else ->
			FITS(-(client[c].known != DONE));
			end_backend(c, ABORTED)
		fi;
		check() }
#endif
	:: d_step { client[c].backend == WROTE && !client[c].here ->
		if
		:: PASSES(c) -> client[c].backend = OPEN
		:: else -> end_backend(c, ABORTED)
		fi;
		check() }
#endif
#ifndef HELD
	/* A change without a reservation: lock, mark, the row of the journal; then the epoch, and a fold, which a CHECK may refuse. */
	:: d_step { client[c].backend == HAS_NOTE && client[c].here && locker == 0 && !IS_HELD ->
		locker = 1 + c;
		client[c].backend = WROTE;
		check() }
	:: d_step { client[c].backend == HAS_NOTE && client[c].here && (locker != 0 || IS_HELD) -> end_backend(c, ABORTED); check() }
	:: d_step { client[c].backend == WROTE && client[c].here ->
		take(c);
		if
		:: HERE_PASSES(c) && row + SUM(client[c].took) + change[c] >= 0 ->
			client[c].folds = 1;
			client[c].backend = OPEN
		:: else -> end_backend(c, ABORTED)
		fi;
		check() }
#endif
	:: d_step { client[c].backend == HAS_COMMIT && client[c].folds && locker == 1 + c -> client[c].backend = FOLDED; check() }
	:: d_step { client[c].backend == HAS_COMMIT && client[c].folds && CAN_LOCK ->
#ifndef NO_LOCK
		locker = 1 + c;
#endif
		take(c);
		FITS(row + SUM(client[c].took) + change[c]);
		client[c].backend = FOLDED;
		check() }
	:: d_step { client[c].backend == HAS_COMMIT && (!client[c].folds || locker != 0 && locker != 1 + c) ->
		record(0, 0, BIT(c), BIT(c), 0);
		client[c].folds = 0;
		client[c].backend = LOGGED;
		check() }
	:: d_step { client[c].backend == FOLDED ->
		record(SUM(client[c].took) + change[c], client[c].took, 0, BIT(c), 0);
		client[c].backend = LOGGED;
		check() }
	:: d_step { client[c].backend == LOGGED ->
		if
		:: sync -> keep(records, j)
		:: else
		fi;
		if
		:: client[c].folds ->
			reveal(SUM(client[c].took) + change[c], client[c].took, 0, BIT(c));
		:: else -> reveal(0, 0, BIT(c), BIT(c))
		fi;
		end_backend(c, COMMITTED);
		check() }
	/* It is ended, or reads the end of its socket. */
	:: d_step { client[c].backend >= HAS_NOTE && client[c].backend <= FOLDED &&
			(client[c].cut || client[c].known == DONE || client[c].epoch != epoch) ->
		end_backend(c, ABORTED);
		check() }
	od
}

proctype candidate(byte p) {
	byte j;
end:	do
	/* Takeover. */
	:: d_step { proxy[p].state == STANDBY && owner == 0 && issued < EPOCHS ->
		owner = 1 + p;
		proxy[p].life = life;
#ifdef COUNTED
		proxy[p].epoch = epoch + 1;
		issued++;
#else
		issued++;
		proxy[p].epoch = issued;
#endif
		live = proxy[p].epoch;
		proxy[p].state = OWNING;
		check() }
#ifdef LOOK_FIRST
	:: d_step { proxy[p].state == OWNING && IS_OWNER(p) && MAY_LOAD -> proxy[p].state = RAISED; check() }
	:: d_step { proxy[p].state == RAISED && IS_OWNER(p) ->
		epoch = proxy[p].epoch;
		proxy[p].state = CLEAR;
		check() }
#else
	:: d_step { proxy[p].state == OWNING && IS_OWNER(p) ->
		epoch = proxy[p].epoch;
#ifdef LOGGED_EPOCH
		record(0, 0, 0, 0, epoch);
#ifndef NO_FLUSH
		keep(records, j);
#endif
#endif
		proxy[p].state = RAISED;
		check() }
	:: d_step { proxy[p].state == RAISED && IS_OWNER(p) && MAY_LOAD -> proxy[p].state = CLEAR; check() }
#endif
	/* The load, which an owner that has lost its place may still do: its loader is another connection. */
	:: d_step { proxy[p].state == CLEAR && proxy[p].life == life && locker == 0 && MAY_MARK(p) ->
		fold_all();
		proxy[p].value = row;
		mark = proxy[p].epoch;
		later = late != 0 && late == mark;
		proxy[p].state = SERVING;
		check() }
#ifndef HELD
	/* The row is left: nothing of it is open. The mark goes later, if the row is not locked then. And marks of former epochs. */
	:: d_step { proxy[p].state == SERVING && proxy[p].reserved == 0 -> proxy[p].state = LEAVING; proxy[p].value = 0; check() }
	:: d_step { proxy[p].state == LEAVING && locker == 0 && proxy[p].life == life ->
		fold_all();
		if
		:: MAY_UNMARK(p) -> mark = 0
		:: else
		fi;
		proxy[p].state = CLEAR;
		check() }
	:: d_step { proxy[p].state == LEAVING && (locker != 0 || proxy[p].life != life) -> proxy[p].state = CLEAR; check() }
	/* The connection of that is lost, and PostgreSQL reads it later: of one proxy, which is enough. */
	:: d_step { p == 0 && proxy[p].state == LEAVING && proxy[p].life == life && late == 0 ->
		late = proxy[p].epoch;
		proxy[p].state = CLEAR;
		check() }
	:: d_step { p == 0 && late != 0 && locker == 0 ->
		if
		:: epoch == late ->
			fold_all();
			if
			:: mark == late && IS_BEFORE -> mark = 0
			:: else
			fi
		:: else
		fi;
		late = 0;
		later = 0;
		check() }
	:: d_step { (proxy[p].state == CLEAR || proxy[p].state == SERVING) && locker == 0 && proxy[p].life == life &&
			mark != 0 && mark != proxy[p].epoch && MAY_SWEEP(p) ->
		fold_all();
		mark = 0;
		check() }
#endif
	/* The folder, of an owner or not. */
#ifdef PART
	:: d_step { proxy[p].state == SERVING && proxy[p].life == life && proxy[p].folding == 0 && locker == 0 && HAS(journal, 0) ->
		locker = 10 + p;
		proxy[p].folding = BIT(0);
		FITS(row + SUM(BIT(0)));
		record(SUM(BIT(0)), BIT(0), 0, 0, 0);
		check() }
	:: d_step { proxy[p].state == SERVING && proxy[p].life == life && proxy[p].folding == 0 && locker == 0 && HAS(journal, 1) ->
		locker = 10 + p;
		proxy[p].folding = BIT(1);
		FITS(row + SUM(BIT(1)));
		record(SUM(BIT(1)), BIT(1), 0, 0, 0);
		check() }
#endif
	:: d_step { proxy[p].state == SERVING && proxy[p].life == life && proxy[p].folding == 0 && journal != 0 && locker == 0 ->
		locker = 10 + p;
		proxy[p].folding = journal;
		FITS(row + SUM(journal));
#ifdef NO_LOCK
		proxy[p].target = row + SUM(journal);
#endif
		record(SUM(journal), journal, 0, 0, 0);
		check() }
	:: d_step { proxy[p].folding != 0 ->
#ifdef NO_LOCK
		reveal(proxy[p].target - row, proxy[p].folding, 0, 0);
		proxy[p].target = 0;
#else
		reveal(SUM(proxy[p].folding), proxy[p].folding, 0, 0);
#endif
		proxy[p].folding = 0;
		locker = 0;
		check() }
	/* It dies, and is started again. Its fold becomes visible all the same. PostgreSQL sees later that its keeper is gone. */
	:: d_step { proxy[p].state != STANDBY && losses < LOSSES ->
		losses++;
		reset(p, j);
		check() }
	:: d_step { proxy[p].state == STANDBY && IS_OWNER(p) ->
		owner = 0;
		live = 0;
		proxy[p].life = 0;
		check() }
	/* The keeper's backend is ended, and the proxy does not know it. */
	:: d_step { IS_OWNER(p) && proxy[p].state != STANDBY && losses < LOSSES ->
		losses++;
		owner = 0;
		live = 0;
		check() }
	/* The proxy sees that its keeper is gone, and begins anew. */
	:: d_step { proxy[p].state >= OWNING && !IS_OWNER(p) ->
		reset(p, j);
		proxy[p].life = 0;
		check() }
	od
}

/* A crash: any first of the records that are not flushed are left. */
proctype crash() {
	byte j, n;
end:	do
	:: atomic { life < CRASHES ->
		do
		:: n < records -> n++
		:: break
		od;
		d_step {
		keep(n, j);
		n = 0;
		row = durable_row;
		journal = durable_journal;
		committed = durable_committed;
#ifdef LOGGED_EPOCH
		epoch = durable_epoch;
#else
		epoch = 0;
#endif
		owner = 0;
		live = 0;
		locker = 0;
		mark = 0;
		late = 0;
		later = 0;
		life++;
		j = 0;
		do
		:: j < CLIENTS ->
			assert(!client[j].answered || HAS(committed, j));   /* an answered COMMIT is durable */
			if
			:: client[j].backend == NONE
			:: client[j].backend != NONE && HAS(committed, j) -> end_backend(j, COMMITTED)
			:: client[j].backend != NONE && !HAS(committed, j) -> end_backend(j, ABORTED)
			fi;
			if
			:: client[j].known == NOTING || client[j].known == NOTED || client[j].known == ENDING -> client[j].cut = 1
			:: else
			fi;
			j++
		:: else -> break
		od;
		j = 0;
		proxy[0].folding = 0;
		proxy[1].folding = 0;
		check() } }
	od
}

init {
	atomic {
		if
		:: start = 0
		:: start = 1
		fi;
		if
		:: sync = 0
		:: sync = 1
		fi;
		change[1] = -1;
		if
		:: change[0] = 1
		:: CLIENTS == 2 -> change[0] = -1
		fi;
#if CLIENTS > 2
		change[2] = -1;
#endif
#if CLIENTS > 3
		if
		:: change[3] = 1
		:: change[3] = -1
		fi;
#endif
		/* Proxy 0 serves, in epoch 1. */
		row = start;
		durable_row = start;
		durable_epoch = 1;
		epoch = 1;
		live = 1;
		issued = 1;
		owner = 1;
		mark = 1;
		proxy[0].state = SERVING;
		proxy[0].epoch = 1;
		proxy[0].value = start;
		run transaction(0);
		run transaction(1);
#if CLIENTS > 2
		run transaction(2);
#endif
#if CLIENTS > 3
		run transaction(3);
#endif
		run candidate(0);
		run candidate(1);
#if CRASHES > 0
		run crash()
#endif
	}
}
