// SEG-2 shot files for Swift: a file that was opened, its traces, and a file that grows, over the proved functions of seg2.h (module CSeg2).
//
// NOT COMPILED where it was written: there was no Swift compiler. It keeps to plain constructs for that reason: arrays that Swift lends to C by
// itself, and the functions whose name ends in _of, which return their answer.
//
// What seg2.h asks of a host is kept in one way: each array that is lent has one element more than the library is told of, so that it always has
// an address, an empty one too. A refusal is thrown as Seg2Refusal; its words are the header's.
//
// A file is checked once, when it is opened; what is asked of its traces reads one trace each. The file's own strings have no such quick questions:
// ask for `strings()` once. A file of an older recorder that was opened leniently is gone through twice at every question.

import CSeg2
import Foundation

// ---- refusals

/// A row of the refusal table: which one, in which part (-1 the file, else the trace), at which place.
public struct Seg2Refusal: Error, Equatable, CustomStringConvertible {
    public let number: UInt32
    public let part: Int32
    public let place: Int

    /// The row in words: those of seg2.h, of Rust and of Java.
    public var text: String {
        return String(cString: seg2_text(number))
    }

    /// Row, part, place and words, as Rust's Display and Java's toString tell them.
    public var description: String {
        return "refused (\(number))" + whose + whereabouts + ": " + text
    }

    /// Whether the row is one of a file's check: its part is the file or a trace, and its place a byte of the file.
    private var isOfCheck: Bool {
        return (number >= 1 && number <= 17) || number == 34
    }

    private var whose: String {
        if !isOfCheck {
            return ""
        }
        return part < 0 ? " in the file" : " in trace \(part)"
    }

    private var whereabouts: String {
        switch number {
        case 1, 2:
            return ""
        case 20, 21, 22:
            return " at byte \(place) of the value"
        case 25, 26:
            return " at byte \(place) of the sheet"
        case 29:
            return " at sample \(place)"
        default:
            return isOfCheck ? " at byte \(place)" : ""
        }
    }

    /// Throws where an answer begins with a refusal.
    static func told(_ number: UInt32, _ part: Int32, _ place: Int) throws {
        if number != 0 {
            throw Seg2Refusal(number: number, part: part, place: place)
        }
    }
}

// ---- names for numbers

/// Which byte of a word comes first.
public enum Seg2Order: UInt32 {
    case lowFirst = 0
    case highFirst = 1
}

/// The format codes. Samples of the first three are whole numbers.
public enum Seg2Code: UInt32 {
    case fixed16 = 1
    case fixed32 = 2
    case float20 = 3
    case float32 = 4
    case float64 = 5
}

/// A string of a file or a trace.
public struct Seg2String: Equatable {
    /// As it stands in the file; read leniently it may have lower-case letters.
    public let key: String
    public let value: String
}

/// A number: the coefficient times ten to the power, negated where minus. `decimals` tells the precision that was typed: 0.250 has 3.
public struct Seg2Decimal: Equatable {
    public let minus: Bool
    public let coefficient: UInt64
    public let power: Int32
    public let decimals: UInt32

    init(minus: Bool, coefficient: UInt64, power: Int32, decimals: UInt32) {
        self.minus = minus
        self.coefficient = coefficient
        self.power = power
        self.decimals = decimals
    }

    /// A text as a number: what a user typed, before it goes into a sheet. 20 where it is none (a comma is no point), 21 where it has too many digits.
    public init(_ typed: String) throws {
        let bytes = lent(typed)
        let answer = seg2_read_number_of(bytes, bytes.count - 1)
        try Seg2Refusal.told(answer.number, answer.part, answer.place)
        self.init(minus: answer.minus == 1, coefficient: answer.coefficient, power: answer.power, decimals: answer.decimals)
    }

    /// The number as text, with the decimals that were typed. It reads back as the same number.
    public func text() throws -> String {
        var room = [UInt8](repeating: 0, count: 25)
        let answer = seg2_write_number_of(&room, 24, minus ? 1 : 0, coefficient, power, decimals)
        try Seg2Refusal.told(answer.number, answer.part, answer.place)
        return String(decoding: room[0..<answer.length], as: UTF8.self)
    }
}

/// A location: x alone, or x, y and z, each with how many digits stood after its point; all of absent ones is 0.
public struct Seg2Location: Equatable {
    public let count: UInt32
    public let x: Double
    public let y: Double
    public let z: Double
    public let xDecimals: UInt32
    public let yDecimals: UInt32
    public let zDecimals: UInt32
}

/// A text as bytes, and one more. A character that is no ASCII has bytes that neither keyword nor value may hold, so it is refused, or not found.
private func lent(_ text: String) -> [UInt8] {
    var bytes = [UInt8](text.utf8)
    bytes.append(0)
    return bytes
}

// ---- reading

/// An opened file. It is a value: its bytes never change, and any number of threads may ask it.
public struct Seg2File {
    /// The file's bytes and one more.
    fileprivate let bytes: [UInt8]
    /// How many bytes the file has.
    public let length: Int
    /// The strict check's refusal of a file that was opened leniently, 14, 16, 17 or 34; nil where the file keeps the rules.
    public let strict: Seg2Refusal?
    public let order: Seg2Order
    public let traceCount: Int
    fileprivate let lineTerminator: [UInt8]

    /// Checks the bytes and opens them: 1 to 17 or 34.
    public init(_ bytes: [UInt8]) throws {
        try self.init(bytes, leniently: false)
    }

    /// Checks a copy of the data and opens it. Data that is mapped is read here, so nobody can change the bytes later.
    public init(_ data: Data) throws {
        try self.init([UInt8](data), leniently: false)
    }

    /// Opens files of older recorders too, whose strings stand in any order, in lower case or without an end mark: 1 to 16. `strict` tells what is
    /// wrong with such a file.
    public static func openLenient(_ bytes: [UInt8]) throws -> Seg2File {
        return try Seg2File(bytes, leniently: true)
    }

    /// The same of data.
    public static func openLenient(_ data: Data) throws -> Seg2File {
        return try Seg2File([UInt8](data), leniently: true)
    }

    private init(_ given: [UInt8], leniently: Bool) throws {
        let count = given.count
        var all = given
        all.append(0)
        var refusal: Seg2Refusal?
        var block = seg2_file()
        if leniently {
            let answer = seg2_lenient_file_block_of(all, count, count)
            block = answer.answer
            if answer.strict.number != 0 {
                refusal = Seg2Refusal(number: answer.strict.number, part: answer.strict.part, place: answer.strict.place)
            }
        } else {
            block = seg2_file_block_of(all, count, count)
        }
        try Seg2Refusal.told(block.number, block.part, block.place)
        bytes = all
        length = count
        strict = refusal
        order = block.order == 1 ? Seg2Order.highFirst : Seg2Order.lowFirst
        traceCount = block.trace_count
        lineTerminator = [UInt8](all[12..<(12 + block.line_terminator_size)])
    }

    /// A trace, counted from 0; 18 where there is none.
    public func trace(_ index: Int) throws -> Seg2Trace {
        let number = Int32(exactly: index) ?? Int32.max
        var block = seg2_trace()
        if strict == nil {
            block = seg2_quick_trace_block_of(bytes, length, length, number)
        } else {
            block = seg2_lenient_trace_block_of(bytes, length, length, number).answer
        }
        try Seg2Refusal.told(block.number, block.part, block.place)
        return Seg2Trace(file: self, index: index, part: number, block: block)
    }

    /// All traces in order.
    public func traces() throws -> [Seg2Trace] {
        var all: [Seg2Trace] = []
        all.reserveCapacity(traceCount)
        for index in 0..<traceCount {
            all.append(try trace(index))
        }
        return all
    }

    /// The file's own strings, in order.
    public func strings() throws -> [Seg2String] {
        return try strings(part: -1)
    }

    /// The value of a keyword of the file's own; nil where there is none.
    public func value(_ key: String) throws -> String? {
        return try value(key, part: -1)
    }

    /// That value as a number: 20 where it is none (so where the keyword is missing), 21 where it has too many digits.
    public func number(_ key: String) throws -> Seg2Decimal {
        return try number(key, part: -1)
    }

    /// That value as a double: 20, 21, or 22 where it is too long, too large or too small.
    public func double(_ key: String) throws -> Double {
        return try double(key, part: -1)
    }

    /// That value as a location: 23 where it has neither one value nor three, then 20 to 22 value by value.
    public func location(_ key: String) throws -> Seg2Location {
        return try location(key, part: -1)
    }

    // The questions of a part: fully for the file itself, quickly for a trace, leniently where the file was read so.

    fileprivate func strings(part: Int32) throws -> [Seg2String] {
        var count = seg2_count()
        if strict != nil {
            count = seg2_lenient_string_count_of(bytes, length, length, part).answer
        } else if part < 0 {
            count = seg2_string_count_of(bytes, length, length, part)
        } else {
            count = seg2_quick_string_count_of(bytes, length, length, part)
        }
        try Seg2Refusal.told(count.number, count.part, count.place)
        let size = 4 * count.count
        var row = [Int](repeating: 0, count: size + 1)
        var verdict = seg2_verdict()
        if strict != nil {
            verdict = seg2_lenient_strings_of(bytes, length, length, part, &row, size).answer
        } else if part < 0 {
            verdict = seg2_strings(bytes, length, length, part, &row, size)
        } else {
            verdict = seg2_quick_strings(bytes, length, length, part, &row, size)
        }
        try Seg2Refusal.told(verdict.number, verdict.part, verdict.place)
        var all: [Seg2String] = []
        all.reserveCapacity(count.count)
        for i in 0..<count.count {
            let key = text(row[4 * i], row[4 * i + 1])
            let value = text(row[4 * i + 2], row[4 * i + 3])
            all.append(Seg2String(key: key, value: value))
        }
        return all
    }

    fileprivate func value(_ key: String, part: Int32) throws -> String? {
        let asked = lent(key)
        let size = asked.count - 1
        var start = 0
        var count = 0
        if strict != nil {
            let answer = seg2_lenient_value_of(bytes, length, length, part, asked, size).answer
            try Seg2Refusal.told(answer.number, answer.part, answer.place)
            start = answer.value_start
            count = answer.value_length
        } else if part < 0 {
            let answer = seg2_value_of(bytes, length, length, part, asked, size)
            try Seg2Refusal.told(answer.number, answer.part, answer.place)
            start = answer.value_start
            count = answer.value_length
        } else {
            let answer = seg2_quick_value_of(bytes, length, length, part, asked, size)
            try Seg2Refusal.told(answer.number, answer.part, answer.place)
            start = answer.value_start
            count = answer.value_length
        }
        // a no is start 0, where no value stands: not even an empty one is in the first 32 bytes
        return start == 0 ? nil : text(start, count)
    }

    fileprivate func number(_ key: String, part: Int32) throws -> Seg2Decimal {
        let asked = lent(key)
        let size = asked.count - 1
        if strict != nil {
            let a = seg2_lenient_number_of(bytes, length, length, part, asked, size).answer
            try Seg2Refusal.told(a.number, a.part, a.place)
            return Seg2Decimal(minus: a.minus == 1, coefficient: a.coefficient, power: a.power, decimals: a.decimals)
        }
        if part < 0 {
            let a = seg2_number_of(bytes, length, length, part, asked, size)
            try Seg2Refusal.told(a.number, a.part, a.place)
            return Seg2Decimal(minus: a.minus == 1, coefficient: a.coefficient, power: a.power, decimals: a.decimals)
        }
        let a = seg2_quick_number_of(bytes, length, length, part, asked, size)
        try Seg2Refusal.told(a.number, a.part, a.place)
        return Seg2Decimal(minus: a.minus == 1, coefficient: a.coefficient, power: a.power, decimals: a.decimals)
    }

    fileprivate func double(_ key: String, part: Int32) throws -> Double {
        let asked = lent(key)
        let size = asked.count - 1
        if strict != nil {
            let a = seg2_lenient_double_of(bytes, length, length, part, asked, size).answer
            try Seg2Refusal.told(a.number, a.part, a.place)
            return a.value
        }
        if part < 0 {
            let a = seg2_double_of(bytes, length, length, part, asked, size)
            try Seg2Refusal.told(a.number, a.part, a.place)
            return a.value
        }
        let a = seg2_quick_double_of(bytes, length, length, part, asked, size)
        try Seg2Refusal.told(a.number, a.part, a.place)
        return a.value
    }

    fileprivate func location(_ key: String, part: Int32) throws -> Seg2Location {
        let asked = lent(key)
        let size = asked.count - 1
        if strict != nil {
            let a = seg2_lenient_location_of(bytes, length, length, part, asked, size).answer
            try Seg2Refusal.told(a.number, a.part, a.place)
            return Seg2Location(count: a.count, x: a.x, y: a.y, z: a.z, xDecimals: a.x_decimals, yDecimals: a.y_decimals, zDecimals: a.z_decimals)
        }
        if part < 0 {
            let a = seg2_location_of(bytes, length, length, part, asked, size)
            try Seg2Refusal.told(a.number, a.part, a.place)
            return Seg2Location(count: a.count, x: a.x, y: a.y, z: a.z, xDecimals: a.x_decimals, yDecimals: a.y_decimals, zDecimals: a.z_decimals)
        }
        let a = seg2_quick_location_of(bytes, length, length, part, asked, size)
        try Seg2Refusal.told(a.number, a.part, a.place)
        return Seg2Location(count: a.count, x: a.x, y: a.y, z: a.z, xDecimals: a.x_decimals, yDecimals: a.y_decimals, zDecimals: a.z_decimals)
    }

    private func text(_ start: Int, _ count: Int) -> String {
        return String(decoding: bytes[start..<(start + count)], as: UTF8.self)
    }
}

/// A trace of an opened file.
public struct Seg2Trace {
    public let file: Seg2File
    /// Counted from 0.
    public let index: Int
    private let part: Int32
    /// 1 to 5.
    public let code: UInt32
    public let sampleCount: Int

    fileprivate init(file: Seg2File, index: Int, part: Int32, block: seg2_trace) {
        self.file = file
        self.index = index
        self.part = part
        self.code = block.format_code
        self.sampleCount = block.sample_count
    }

    /// The strings, in order.
    public func strings() throws -> [Seg2String] {
        return try file.strings(part: part)
    }

    /// The value of a keyword; nil where there is none. Of a keyword that stands several times, the first.
    public func value(_ key: String) throws -> String? {
        return try file.value(key, part: part)
    }

    /// That value as a number: 20 where it is none (so where the keyword is missing), 21 where it has too many digits.
    public func number(_ key: String) throws -> Seg2Decimal {
        return try file.number(key, part: part)
    }

    /// That value as a double: 20, 21, or 22 where it is too long, too large or too small.
    public func double(_ key: String) throws -> Double {
        return try file.double(key, part: part)
    }

    /// That value as a location: 23 where it has neither one value nor three, then 20 to 22 value by value.
    public func location(_ key: String) throws -> Seg2Location {
        return try file.location(key, part: part)
    }

    /// The samples of code 1 to 3; 33 of the others.
    public func integers() throws -> [Int32] {
        var row = [Int32](repeating: 0, count: sampleCount + 1)
        var verdict = seg2_verdict()
        if file.strict == nil {
            verdict = seg2_quick_integers(file.bytes, file.length, file.length, part, &row, sampleCount)
        } else {
            verdict = seg2_lenient_integers_of(file.bytes, file.length, file.length, part, &row, sampleCount).answer
        }
        try Seg2Refusal.told(verdict.number, verdict.part, verdict.place)
        row.removeLast()
        return row
    }

    /// The bit patterns of the samples of code 4 or 5, those of code 4 in the low 32 bits; 33 of the others. The class of each tells zero (0),
    /// underflow (1), number (2), infinity (3) and what is not a number (4).
    public func bits() throws -> (patterns: [UInt64], classes: [UInt8]) {
        var patterns = [UInt64](repeating: 0, count: sampleCount + 1)
        var classes = [UInt8](repeating: 0, count: sampleCount + 1)
        var verdict = seg2_verdict()
        if file.strict == nil {
            verdict = seg2_quick_bits(file.bytes, file.length, file.length, part, &patterns, sampleCount, &classes, sampleCount)
        } else {
            verdict = seg2_lenient_bits_of(file.bytes, file.length, file.length, part, &patterns, sampleCount, &classes, sampleCount).answer
        }
        try Seg2Refusal.told(verdict.number, verdict.part, verdict.place)
        patterns.removeLast()
        classes.removeLast()
        return (patterns: patterns, classes: classes)
    }

    /// The samples of code 4; 33 of the others: none is rounded unasked. `doubles` answers for every code.
    public func floats() throws -> [Float] {
        if code != Seg2Code.float32.rawValue {
            throw Seg2Refusal(number: 33, part: -1, place: 0)
        }
        return try bits().patterns.map { pattern in Float(bitPattern: UInt32(truncatingIfNeeded: pattern)) }
    }

    /// The samples of any code: a double holds each of them exactly. What is not a number may come with other bits, as `bits` never does.
    public func doubles() throws -> [Double] {
        if code <= Seg2Code.float20.rawValue {
            return try integers().map { sample in Double(sample) }
        }
        let patterns = try bits().patterns
        if code == Seg2Code.float32.rawValue {
            return patterns.map { pattern in Double(Float(bitPattern: UInt32(truncatingIfNeeded: pattern))) }
        }
        return patterns.map { pattern in Double(bitPattern: pattern) }
    }

    /// The lines of the NOTE; none where there is no NOTE.
    public func note() throws -> [String] {
        guard let value = try file.value("NOTE", part: part) else {
            return []
        }
        let terminator = String(decoding: file.lineTerminator, as: UTF8.self)
        return value.components(separatedBy: terminator)
    }
}

// ---- writing

/// A file that grows. A refusal leaves it as it was.
///
/// A sheet is lines of keyword, tab, value and line feed, with the keywords rising and NOTE last: "RECEIVER_LOCATION\t12.5\nSTACK\t4\n".
public struct Seg2Growing {
    /// The file's bytes, then room.
    private var buffer: [UInt8]
    public private(set) var length: Int

    /// A new file without traces: 31, 25, 26, 27. It is no file until a trace is added.
    public init(order: Seg2Order, slots: Int, sheet: String) throws {
        let lines = lent(sheet)
        let count = UInt32(exactly: slots) ?? UInt32.max
        var size = seg2_length()
        seg2_start_size(&size, order.rawValue, count, lines, lines.count - 1)
        try Seg2Refusal.told(size.number, size.part, size.place)
        var room = [UInt8](repeating: 0, count: size.length)
        let answer = seg2_start_of(&room, size.length, order.rawValue, count, lines, lines.count - 1)
        try Seg2Refusal.told(answer.number, answer.part, answer.place)
        buffer = room
        length = answer.length
    }

    /// A file, or a new one without traces, that is to get more. Nothing is checked here: the next addition refuses what is neither, by 1 to 17 or 34.
    public init(extending bytes: [UInt8]) {
        var room = bytes
        room.append(0)
        buffer = room
        length = bytes.count
    }

    /// Adds a trace of code 1 to 3: 1 to 17 and 34 for the file, 24, 25, 26, 27, 35, 28, 29, and 30 where the file would be too long.
    public mutating func add(sheet: String, code: Seg2Code, integers row: [Int32]) throws {
        let lines = lent(sheet)
        let count = row.count
        var samples = row
        samples.append(0)
        try makeRoom(lines, code, count)
        let size = buffer.count
        let old = length
        let answer = seg2_add_integers_of(&buffer, size, old, lines, lines.count - 1, code.rawValue, samples, count)
        try Seg2Refusal.told(answer.number, answer.part, answer.place)
        length = answer.length
    }

    /// Adds a trace of code 4, each float by its bits. The same refusals.
    public mutating func add(sheet: String, floats row: [Float]) throws {
        try add(sheet: sheet, code: Seg2Code.float32, patterns: row.map { sample in UInt64(sample.bitPattern) })
    }

    /// Adds a trace of code 5, each double by its bits. The same refusals.
    public mutating func add(sheet: String, doubles row: [Double]) throws {
        try add(sheet: sheet, code: Seg2Code.float64, patterns: row.map { sample in sample.bitPattern })
    }

    /// Adds a trace of code 4 or 5 from bit patterns. The same refusals.
    public mutating func add(sheet: String, code: Seg2Code, patterns row: [UInt64]) throws {
        let lines = lent(sheet)
        let count = row.count
        var samples = row
        samples.append(0)
        try makeRoom(lines, code, count)
        let size = buffer.count
        let old = length
        let answer = seg2_add_bits_of(&buffer, size, old, lines, lines.count - 1, code.rawValue, samples, count)
        try Seg2Refusal.told(answer.number, answer.part, answer.place)
        length = answer.length
    }

    /// The bytes so far: a file once a trace was added. `Data(growing.bytes).write(to: url, options: .atomic)` writes it whole or not at all.
    public var bytes: [UInt8] {
        return [UInt8](buffer[0..<length])
    }

    /// Room for one trace more, by the library's own answer: its refusals are the addition's, but 29.
    private mutating func makeRoom(_ lines: [UInt8], _ code: Seg2Code, _ count: Int) throws {
        var size = seg2_length()
        seg2_add_size(&size, buffer, buffer.count, length, lines, lines.count - 1, code.rawValue, count)
        try Seg2Refusal.told(size.number, size.part, size.place)
        if size.length > buffer.count {
            // half as much again, so that many additions do not copy the file each time
            let more = max(size.length, min(buffer.count + buffer.count / 2, 67_108_864))
            buffer.append(contentsOf: [UInt8](repeating: 0, count: more - buffer.count))
        }
    }
}
