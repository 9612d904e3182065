# make demo [EXAMPLE=crossing|bottles|motor|tank|pumps|interlock|meter|cistern|furnace|heat|mixer]   runs plc on a real program, and prints a line for each scan
# make demo IL=FILE.il COMMANDS=FILE.json     the same for a program of your own
# make demo EXAMPLE=bottles SESSION=_session  a session of the debugger with that program
# make standby [SCHEDULE=crash|failover|lost]  three replicas of the motor: one crashes between two scans and comes back
# make serve [EXAMPLE=motor] [PORT=5020]        serves that program to Modbus clients, until it's interrupted; a new store in a temporary directory
# make picture [EXAMPLE=crossing]             what plc run prints for it, as a picture over time: build/crossing.svg; also IL=.. COMMANDS=.. (with build/plc)
# make picture SCHEDULE=crash                 the messages of that schedule as a chart: build/motor_crash.svg; also SCHEDULE=own EVENTS=FILE.json [IL=..]
# make failover [TO=build/failover.svg]        a tank and its pump on three replicas that crash in turn, played by examples/failover.py: half a minute, and its picture (with build/plc)
# make failover-machines [TO=..]              the same tank on three machines, each a process, of which the one that drives is killed again and again: half a minute, and its picture (with build/plc)
# make field [TO=build/field.svg]             the motor at a Modbus coupler that is stopped and comes back, carried by plc field: ten seconds, and its picture (with build/plc)
# make plc [JOBS=2]                           proves the program and builds it: build/plc; so many crates at once, or as many as there are processors and memory for
# make simulate [WORDS="f=2 1..20"] [JOBS=2]    proves the simulator and runs groups of machines by virtual time from these seeds: build/sim_group (crates/sim_group/src/main.rt has its words)
# make install [PREFIX=/usr/local] [DESTDIR=]  puts the proved program, its man pages, completions of bash, the documents, number-lines, the examples and systemd units there
# make uninstall [PREFIX=..] [DESTDIR=..]       takes away what install puts there
# make deb                                    a Debian package of the proved program with all that install puts there: build/plc_VERSION_amd64.deb
# make dist                                   the same files as build/plc-VERSION-linux-amd64.tar.gz, with their sums
# make test                                   the whole gate: that plc --version names these sources, the rows of the examples are those of examples/, the table of crates is that of crates.txt, AUDIT names what is there, REFERENCE says what the sources say, DECISIONS lists what there is, pages link to what is there, GATE says what its table comes to and the pictures are those of examples/, then rt ci, and then what the program does that it has built

EXAMPLE ?= crossing
IL = examples/$(EXAMPLE).il
COMMANDS = examples/$(EXAMPLE)$(SESSION).json

PORT ?= 5020
serve: EXAMPLE = motor

PICTURE := $(if $(SCHEDULE),schedule,run)
SCHEDULE ?= crash
EVENTS = examples/motor_$(SCHEDULE).json

.PHONY: demo standby serve picture picture-run picture-schedule failover failover-machines field plc simulate install put uninstall deb dist test

# make plc leaves build/plc.sum, the record of the program that it proved (tools/gate/sources --record): so it's known whether
# build/plc is these sources' proved program. Where it isn't, the same sources are built and run, unproved.
IS_PROVED = tools/user/is-proved --quiet --of "$$(tools/gate/sources)" build/plc

demo:
	@cat $(IL)
	@if $(IS_PROVED); then \
		echo; echo "-- plc run $(IL) $(COMMANDS), the proved program (build/plc):"; \
		build/plc run $(IL) $(COMMANDS); \
	else \
		echo; echo "-- plc run $(IL) $(COMMANDS), a run that proves nothing: it builds the sources, one to four minutes, each time anew; after make plc it takes a second"; \
		cd crates/plc && ../../tools/prove/while-silent rt try --data program.il=$(abspath $(IL)) --data commands.json=$(abspath $(COMMANDS)) -- run program.il commands.json; \
	fi

standby:
	@if $(IS_PROVED); then \
		echo "-- plc sim examples/motor.il $(EVENTS), the proved program (build/plc):"; \
		build/plc sim examples/motor.il $(EVENTS); \
	else \
		echo "-- plc sim examples/motor.il $(EVENTS), a run that proves nothing: it builds the sources, one to four minutes, each time anew; after make plc it takes a second"; \
		cd crates/plc && ../../tools/prove/while-silent rt try --data motor.il=$(abspath examples/motor.il) --data events.json=$(abspath $(EVENTS)) -- sim motor.il events.json; \
	fi

serve:
	@cat $(IL)
	@echo; echo "-- plc serve $(IL) on 127.0.0.1:$(PORT), three replicas, a scan each 100 ms; another shell may ask, as with mbpoll:"
	@echo "   mbpoll -m tcp -p $(PORT) -0 -t 0 -r 0 127.0.0.1 1 1 1     sets %IX0.0 to %IX0.2"
	@echo "   mbpoll -m tcp -p $(PORT) -0 -t 1 -r 0 -c 3 127.0.0.1     shows %QX0.0 to %QX0.2 each second, in this order"
	@echo "   python3 examples/client.py $(PORT)                         starts and stops the motor"
	@if $(IS_PROVED); then \
		build/plc serve $(IL) --store "$$(mktemp -d)" --port $(PORT); \
	else \
		echo "-- a run of ten minutes that proves nothing: it builds the sources first, one to four minutes, each time anew; after make plc it starts at once"; \
		cd crates/plc && ../../tools/prove/while-silent --port $(PORT) rt try --seconds 600 --data program.il=$(abspath $(IL)) -- serve program.il --store "$$(mktemp -d)" --port $(PORT); \
	fi

# Of an example or a schedule the stored lines are drawn, which the gate holds the program to; of any other run what build/plc prints.
BUILT = { [ -x build/plc ] || { echo "build/plc is not there: make plc"; false; }; }
PROVED = { $(IS_PROVED) || { echo "build/plc is not there, or not the proved program of these sources: make plc"; false; }; }

picture: picture-$(PICTURE)

picture-run:
	@mkdir -p build
	@lines=$(if $(filter command,$(origin IL) $(origin COMMANDS)),,$(COMMANDS:.json=.txt)); if [ ! -e "$$lines" ]; then lines=build/lines.txt; $(BUILT) && build/plc run $(IL) $(COMMANDS) > $$lines || exit 1; fi; \
	picture=build/$(basename $(notdir $(COMMANDS))).svg; \
	tools/user/timeline --svg --il $(IL) $(COMMANDS) $$lines > $$picture && tools/user/timeline --il $(IL) $(COMMANDS) $$lines && echo "-- the same as a picture: $$picture"

picture-schedule: EXAMPLE = motor
picture-schedule:
	@mkdir -p build
	@report=$(if $(filter command,$(origin IL) $(origin EVENTS)),,$(EVENTS:.json=.txt)); if [ ! -e "$$report" ]; then report=build/report.txt; $(BUILT) && build/plc sim $(IL) $(EVENTS) > $$report || exit 1; fi; \
	picture=build/$(basename $(notdir $(EVENTS))).svg; \
	tools/user/sequence $(EVENTS) $$report > $$picture && tools/user/sequence --text $(EVENTS) && echo "-- the messages of $(EVENTS), as a chart: $$picture"

TO ?= build/$@.svg

failover:
	@$(BUILT)
	@mkdir -p build
	@python3 examples/failover.py build/plc $(TO) && echo "-- the same as a picture: $(TO)"

failover-machines:
	@$(BUILT)
	@mkdir -p build
	@python3 examples/machines/play.py build/plc $(TO) && echo "-- the same as a picture: $(TO)"

field:
	@$(BUILT)
	@mkdir -p build
	@python3 examples/field/play.py build/plc $(TO) && echo "-- the same as a picture: $(TO)"

plc:
	tools/gate/sources --check
	tools/prove/make-libraries $(if $(JOBS),--jobs $(JOBS)) plc
	cd crates/plc && rt run -- --version
	mkdir -p build && cp crates/plc/out/plc build/plc
	tools/gate/sources --record build/plc > build/plc.sum

simulate:
	tools/prove/make-libraries $(if $(JOBS),--jobs $(JOBS)) sim_group
	cd crates/sim_group && rt run
	mkdir -p build && cp crates/sim_group/out/sim_group build/sim_group
	build/sim_group $(if $(WORDS),$(WORDS),$$(cat crates/sim_group/args))

PREFIX ?= /usr/local
BIN = $(DESTDIR)$(PREFIX)/bin
SHARE = $(DESTDIR)$(PREFIX)/share
UNITS = $(DESTDIR)$(PREFIX)/lib/systemd/system
USERS = $(DESTDIR)$(PREFIX)/lib/sysusers.d
PAGES = asm list names diff where run sim serve ask fetch field format show

install:
	@$(PROVED)
	@$(MAKE) --no-print-directory put

# What is installed, of any program: install, deb and dist do it with the proved one, and its record beside it as BUILD.
put: PLC ?= build/plc
put:
	mkdir -p $(BIN) $(SHARE)/man/man1 $(SHARE)/bash-completion/completions $(SHARE)/plc/examples/console $(SHARE)/plc/examples/field $(SHARE)/plc/examples/machines $(SHARE)/plc/examples/prometheus $(SHARE)/plc/docs/decisions $(SHARE)/plc/docs/pictures $(SHARE)/plc/tools/user/importing $(UNITS) $(USERS)
	install -m 755 $(PLC) $(BIN)/plc
	rm -f $(SHARE)/plc/BUILD; if tools/user/is-proved --quiet --by build/plc.sum $(PLC); then install -m 644 build/plc.sum $(SHARE)/plc/BUILD; fi
	tools/user/man-page $(PLC) $(SHARE)/man/man1
	tools/user/completion $(PLC) > $(SHARE)/bash-completion/completions/plc
	install -m 644 README.md SECURITY.md CHANGELOG.md CONTRIBUTING.md crates.txt $(SHARE)/plc
	install -m 644 docs/*.md $(SHARE)/plc/docs
	install -m 644 docs/decisions/*.md $(SHARE)/plc/docs/decisions
	install -m 644 docs/pictures/*.svg docs/pictures/*.png $(SHARE)/plc/docs/pictures
	install -m 755 tools/user/number-lines tools/user/import tools/user/is-proved $(SHARE)/plc/tools/user
	install -m 644 tools/user/importing/*.py $(SHARE)/plc/tools/user/importing
	install -m 644 examples/*.* $(SHARE)/plc/examples
	install -m 644 examples/console/*.* $(SHARE)/plc/examples/console
	install -m 644 examples/field/*.* $(SHARE)/plc/examples/field
	install -m 644 examples/machines/*.* $(SHARE)/plc/examples/machines
	install -m 644 examples/prometheus/*.* $(SHARE)/plc/examples/prometheus
	for unit in plc.service plc@.service plc-field@.service; do sed 's#/usr/local#$(PREFIX)#g' examples/$$unit > $(UNITS)/$$unit && chmod 644 $(UNITS)/$$unit || exit 1; done
	install -m 644 examples/plc.sysusers $(USERS)/plc.conf

uninstall:
	rm -f $(BIN)/plc $(SHARE)/man/man1/plc.1 $(PAGES:%=$(SHARE)/man/man1/plc-%.1) $(SHARE)/bash-completion/completions/plc $(UNITS)/plc.service $(UNITS)/plc@.service $(UNITS)/plc-field@.service $(USERS)/plc.conf
	rm -rf $(SHARE)/plc

deb:
	@$(PROVED)
	tools/user/make-deb build/plc

dist:
	@$(PROVED)
	tools/user/make-deb --tar build/plc

test:
	tools/gate/sources --check
	tools/gate/example-rows --check
	tools/gate/frame-rows --check
	tools/gate/crates-table
	tools/gate/audit-lines --check
	tools/gate/seen-by --check
	tools/gate/reference --check
	tools/gate/decisions --check
	tools/gate/links
	-@tools/gate/cells
	tools/gate/gate-times --reckon --check
	tools/user/timeline --check
	tools/user/sequence --check
	-@tools/gate/gate-times --difference
	rt ci
	tools/try/try-built
