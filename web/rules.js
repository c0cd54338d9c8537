// What the office takes and other name servers refuse or warn of: the rules of `zoneoffice check zone` (docs/formats.md).

import {targetOf} from "./data.js";
import {isHost, isHostOwner, isReverse, isWithin, labelsOf, parentOf} from "./names.js";
import {upwards} from "./zone.js";

export const RULES = ["host-name", "alias-target", "missing-address", "missing-glue", "below-cut", "ds-without-ns", "wildcard-ns", "digest-length", "weak-digest",
    "address-name", "unread-octet", "dangling-alias"];

const SERVED = ["NS", "MX", "SRV"];
const isAddress = ({type}) => type === "A" || type === "AAAA";
const SPF_LABELS = ["_spf", "_spf_rate", "_spf_verify"];
const BROWSING_LABELS = ["b", "db", "r", "dr", "lb"];

// ---- names of hosts (RFC 952, RFC 1123 section 2.1)

function isGlobalCatalog(name) {
    const [first, second] = labelsOf(name);
    return first === "gc" && second === "_msdcs" && isHost(parentOf(parentOf(name)));
}

function isBrowsing(name) {
    const [first, second, third] = labelsOf(name);
    return BROWSING_LABELS.includes(first) && second === "_dns-sd" && third === "_udp";
}

const isMailbox = (name) => name === "." || isHost(parentOf(name));
const fitsOwner = {
    A: ({name}) => isHostOwner(name) || isGlobalCatalog(name) || labelsOf(name).some((label) => SPF_LABELS.includes(label)),
    AAAA: ({name}) => isHostOwner(name) || isGlobalCatalog(name),
    MX: ({name, data}) => isHostOwner(name) && isHost(data.split(" ")[1]),
    NS: ({data}) => isHost(data),
    SRV: ({data}) => isHost(data.split(" ")[3]),
    PTR: ({name, data}) => !isReverse(name) || isBrowsing(name) || isHost(data),
    SOA: ({data}) => isHost(data.split(" ")[0]) && isMailbox(data.split(" ")[1]),
};

/** Whether a record has the names of hosts where it needs them. */
export const hasHostNames = (record) => fitsOwner[record.type]?.(record) ?? true;

// ---- what is wrong with a record by itself

const DIGITS = {1: 40, 2: 64, 4: 96}; // of digests by SHA-1, SHA-256 and SHA-384 (RFC 4034 section 5.1, RFC 4509 section 2.1, RFC 6605 section 2)
const UNREAD = /[!#%&'+,:<=>?[\]^`{|}~]/;

const hasLength = ([, , digestType, digest]) => digest.length === (DIGITS[digestType] ?? digest.length);
const isOctet = (label) => /^[0-9]+$/.test(label) && Number(label) < 256;
const isAddressName = (name) => labelsOf(name).length === 4 && labelsOf(name).every(isOctet);
const namesIn = (record) => (record.type === "SOA" ? record.data.split(" ").slice(0, 2) : [targetOf(record) ?? "."]);
const NAMES_AT_FAULT = {
    "host-name": (record) => namesIn(record).find((name) => !isHost(name)),
    "address-name": targetOf,
    "unread-octet": (record) => namesIn(record).find((name) => UNREAD.test(name)),
};
const OWN_FAULTS = Object.entries({
    "host-name": (record) => !hasHostNames(record),
    "wildcard-ns": ({name, type}) => type === "NS" && name.startsWith("*."),
    "digest-length": ({type, data}) => type === "DS" && !hasLength(data.split(" ")),
    "weak-digest": ({type, data}) => type === "DS" && data.split(" ")[2] === "1",
    "address-name": (record) => isAddressName(targetOf(record) ?? "."),
    "unread-octet": (record) => UNREAD.test(record.name) || namesIn(record).some((name) => UNREAD.test(name)),
});

// ---- the zone as a whole

/** What is looked up again and again: where a zone is cut, and which servers its NS records name. */
class Survey {
    constructor(zone) {
        this.zone = zone;
        this.cuts = new Set();
        this.servers = new Set();
        this.delegated = new Map(); // names that were asked for, and whether they are at or below a cut
        zone.forEach(({name, type, data}) => {
            if (type === "NS") {
                this.servers.add(data);
                if (name !== zone.origin) {
                    this.cuts.add(name);
                }
            }
        });
    }

    /** Whether a name of the zone is at or below a cut. Names above it are looked up once, since most records have the same. */
    isDelegated(name) {
        if (this.cuts.size === 0) {
            return false;
        }
        if (this.cuts.has(name)) {
            return true;
        }
        const above = parentOf(name);
        if (!this.delegated.has(above)) {
            this.delegated.set(above, above !== this.zone.origin && isWithin(above, this.zone.origin) && this.isDelegated(above));
        }
        return this.delegated.get(above);
    }

    isOccluded({name, type}) {
        return this.cuts.size > 0 && this.isDelegated(name) && !((type === "NS" || type === "DS") && !this.isDelegated(parentOf(name)));
    }

    /** The records that answer for a name, of a wildcard too (RFC 4592). */
    answering(name) {
        if (this.zone.exists(name)) {
            return this.zone.at(name);
        }
        for (const above of upwards(parentOf(name), this.zone.origin)) {
            if (this.zone.exists(above)) {
                return this.zone.at(`*.${above}`);
            }
        }
        return [];
    }

    brokenBy(record, server) {
        const there = this.zone.at(server);
        const hasAddress = there.some(isAddress);
        if (hasAddress && !there.some(({type}) => type === "CNAME")) {
            return undefined;
        }
        if (this.isDelegated(server)) {
            const isCut = record.type === "NS" && record.name !== this.zone.origin;
            return !hasAddress && isCut && !this.isOccluded(record) ? "missing-glue" : undefined;
        }
        if (this.isOccluded(record)) {
            return undefined;
        }
        const answers = this.answering(server);
        return answers.some(({type}) => type === "CNAME") ? "alias-target" : answers.some(isAddress) ? undefined : "missing-address";
    }

    /** Whether an alias is one of nothing. */
    dangles(record, target) {
        return !this.isDelegated(target) && !this.isOccluded(record) && this.answering(target).length === 0;
    }

    /** The rule that a record breaks by the server or other name in the zone that it points to. */
    brokenByTarget(record, target) {
        if (record.type === "CNAME") {
            return this.dangles(record, target) ? "dangling-alias" : undefined;
        }
        return SERVED.includes(record.type) ? this.brokenBy(record, target) : undefined;
    }

    /** Puts the rules by which a record is at fault into a list, with the name in its data that is at fault, if one is. */
    judge(record, found) {
        for (const [rule, isFaulty] of OWN_FAULTS) {
            if (isFaulty(record)) {
                found.push({rule, record, at: NAMES_AT_FAULT[rule]?.(record)});
            }
        }
        const server = targetOf(record);
        const broken = server !== null && isWithin(server, this.zone.origin) ? this.brokenByTarget(record, server) : undefined;
        if (broken) {
            found.push({rule: broken, record, server});
        }
        if (this.isOccluded(record) && !(isAddress(record) && this.servers.has(record.name))) {
            found.push({rule: "below-cut", record});
        }
        if (record.type === "DS" && !this.zone.at(record.name).some(({type}) => type === "NS")) {
            found.push({rule: "ds-without-ns", record});
        }
    }
}

/** All that is at fault in a zone after operations; or only what is with some records. */
export function findings(outlook, records) {
    const survey = new Survey(outlook);
    const found = [];
    const judge = (record) => survey.judge(record, found);
    if (records) {
        records.forEach(judge);
    } else {
        outlook.forEach(judge);
    }
    return found;
}

const STOPPING = ["host-name", "wildcard-ns", "digest-length", "unread-octet"];
const STOPPING_NS = ["alias-target", "missing-address", "missing-glue"];
const SILENT = ["below-cut", "ds-without-ns", "dangling-alias"];

/** Whether BIND or Knot refuses the whole zone for it, so that nobody's changes go live. */
export const stopsZone = ({rule, record}) => STOPPING.includes(rule) || (record.type === "NS" && STOPPING_NS.includes(rule));

/** Whether no name server says anything of it, and it does not work all the same. */
export const isSilent = ({rule}) => SILENT.includes(rule);
