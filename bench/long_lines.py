"""Inputs of one long line, or of a few, for bench/documents: each row of its table by name, for a size in bytes."""
import json


def text(value):
    return json.dumps(value, separators=(",", ":"))


def times(count, item):
    return [item(number) for number in range(count)]


def install(document):
    return "install " + text(document)


def document_line(document):
    return "document " + text(text(document))


def component(number, **fields):
    return dict({"implementationClass": f"C{number}"}, **fields)


def location(number, components, **fields):
    return dict({"location": f"x{number}", "components": components}, **fields)


def manifest(lines):
    return "Bundle-ManifestVersion: 2\nBundle-SymbolicName: n\n" + lines


def listed(size, pattern):
    entries = {f"a{number}": 0 for number in range(size // 2 // 13)}
    names = ",".join([pattern] * (size // 2 // (len(pattern) + 1)))
    return [document_line(location(0, entries, manifest=manifest(f"Service-Component: {names}\n")))]


def stars(size):
    return listed(size, "*")


def stars_without_match(size):
    return listed(size, "*x")


def different(size, name):
    entries = {f"a{number}": 0 for number in range(size // 2 // 13)}
    names = ",".join(times(size // 2 // 9, name))
    return [document_line(location(0, entries, manifest=manifest(f"Service-Component: {names}\n")))]


def different_stars(size):
    return different(size, lambda number: f"*x{number}")


def different_ends(size):
    return different(size, lambda number: f"*{number}")


def different_beginnings(size):
    return different(size, lambda number: f"a{number}*")


def different_middles(size):
    return different(size, lambda number: f"a*{number}")


def nested_beginnings(size):
    count = int((size // 4) ** 0.5)
    entries = {"a" * count + f"{number}": 0 for number in range(size // 2 // (count + 9))}
    names = ",".join(times(count, lambda number: "a" * number + "*"))
    return [document_line(location(0, entries, manifest=manifest(f"Service-Component: {names}\n")))]


def property_keys(size):
    properties = {f"k{number}": 1 for number in range(size // 14)}
    return [document_line(location(0, {"e": component(0, properties=properties)}))]


def manifest_headers(size):
    lines = "".join(times(size // 12, lambda number: f"H{number}: v\n"))
    return ["manifest " + text(manifest(lines))]


def interfaces(size):
    names = times(size // 10, lambda number: f"i{number}")
    return [install(location(0, {"e": component(0, serviceInterfaces=names)}))]


def reference_names(size):
    references = times(size // 28, lambda number: {"interfaceName": f"i{number}"})
    return [install(location(0, {"e": component(0, references=references)}))]


def substring(size):
    part = "a" * (size // 4) + "b"
    return ["filter " + text(f"(k=*{part}*)") + " " + text(text({"k": "a" * (size - len(part))}))]


def chain(size, ends):
    count = size // 114
    components = {}
    for number in range(count):
        needs = [{"interfaceName": f"i{number + 1}"}]
        if number == count - 1:
            needs = [{"interfaceName": f"i{number}"}] if ends else []
        components[f"e{number:06}"] = component(number, serviceInterfaces=[f"i{number}"], references=needs)
    return [install(location(0, components))]


def cycle_behind_chain(size):
    return chain(size, True)


def levels_of_chain(size):
    return chain(size, False)


def every_need_of_one(size):
    count = size // 40
    names = times(count, lambda number: f"i{number}")
    references = [{"interfaceName": name} for name in names]
    provider = component(0, serviceInterfaces=names)
    return [
        install(location(0, {"p": provider})),
        install(location(1, {"c": component(1, references=references)})),
        "start 1",
        "start 2",
    ]


def needs_of_one_service(size):
    references = times(size // 38, lambda number: {"name": f"r{number}", "interfaceName": "i"})
    return [
        install(location(0, {"p": component(0, serviceInterfaces=["i"])})),
        install(location(1, {"c": component(1, references=references)})),
        "start 1",
        "start 2",
    ]


def many_to_many(size):
    def one(bundle):
        components = {}
        for number in range(size // 170):
            name = f"{bundle}_{number}"
            components["p" + name] = component("p" + name, serviceInterfaces=["i"])
            components["q" + name] = component("q" + name, references=[{"interfaceName": "i"}])
        return install(location(bundle, components))

    return times(3, one)


def long_name(size):
    lines = [install(location(0, {"e": component("x" * size)})), "start 1"]
    return lines + ["stop 1", "start 1"] * 400


# the name of a row, the program, and what makes its lines
ROWS = [
    ("stars over many entries", "reader_examples", stars),
    ("stars that match nothing", "reader_examples", stars_without_match),
    ("different names with stars", "reader_examples", different_stars),
    ("names with a star at the front", "reader_examples", different_ends),
    ("names with a star at the back", "reader_examples", different_beginnings),
    ("names with a star inside", "reader_examples", different_middles),
    ("beginnings that grow by a letter", "reader_examples", nested_beginnings),
    ("keys in properties", "reader_examples", property_keys),
    ("headers of a manifest", "reader_examples", manifest_headers),
    ("interfaces of a component", "osgi_run", interfaces),
    ("references of a component", "osgi_run", reference_names),
    ("a substring with a long part", "reader_examples", substring),
    ("a cycle behind a chain", "osgi_run", cycle_behind_chain),
    ("levels of a chain", "osgi_run", levels_of_chain),
    ("a reference to each interface", "osgi_run", every_need_of_one),
    ("many references to one service", "osgi_run", needs_of_one_service),
    ("many providers, many consumers", "osgi_run", many_to_many),
    ("400 restarts under a long name", "osgi_run", long_name),
]


def later(prefix, line):
    return lambda size: [prefix, "start 1", line(size)]


def wired(header):
    return [install(location(0, {}, manifest=manifest(header + "\n"))), "wiring"]


def attributes(number, size):
    return f"c{number}" + "".join(times(size // 13, lambda one: f";a{one:06}=xyz"))


D = install(location(0, {}))
ROWS += [
    (
        "register with many interfaces",
        "osgi_run",
        later(D, lambda size: "register 1 " + ",".join(times(size // 8, lambda number: f"i{number}")) + " {}"),
    ),
    (
        "register with many keys",
        "osgi_run",
        later(D, lambda size: "register 1 i " + text({f"k{number}": 1 for number in range(size // 12)})),
    ),
    (
        "a filter over 1,024 services",
        "osgi_run",
        lambda size: [D, "start 1"]
        + ["register 1 i {}"] * 1024
        + ["find (|" + "".join(times(size // 12, lambda number: f"(k{number}=1)")) + ")"],
    ),
    (
        "a configuration with many keys",
        "osgi_run",
        lambda size: ["config p " + text({f"k{number}": 1 for number in range(size // 12)})],
    ),
    (
        "a factory's with many keys",
        "osgi_run",
        lambda size: ["factory p one " + text({f"k{number}": 1 for number in range(size // 12)})],
    ),
    (
        "a report with many keys",
        "osgi_run",
        lambda size: [
            install(location(0, {"p": component(0, name="p")})),
            "start 1",
            "config p " + text({f"k{number}": 1 for number in range(size // 12)}),
            "report 1",
        ],
    ),
    (
        "wiring of many imports",
        "osgi_run",
        lambda size: wired("Import-Package: " + ",".join(times(size // 10, lambda number: f"p{number:08}"))),
    ),
    (
        "wiring of many exports",
        "osgi_run",
        lambda size: wired("Export-Package: " + ",".join(times(size // 20, lambda number: f"p{number:08};version=1"))),
    ),
    (
        "wiring of clauses with many attributes",
        "osgi_run",
        lambda size: wired("Provide-Capability: " + ",".join(times(8, lambda number: attributes(number, size // 8)))),
    ),
    (
        "a report with many references",
        "osgi_run",
        lambda size: reference_names(size) + ["start 1", "report 1"],
    ),
]
