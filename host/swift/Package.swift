// swift-tools-version:5.5
// The proved SEG-2 library for Swift, as a package. In the bundle it stands in swift/ with Seg2.xcframework beside this file; Xcode: File, Add
// Packages, Add Local. A binary target is for Apple's systems alone. Not compiled where it was written: there was no Swift.
import PackageDescription

let package = Package(
    name: "Seg2",
    platforms: [.iOS(.v13), .macOS(.v11)],
    products: [
        .library(name: "Seg2", targets: ["Seg2"]),
    ],
    targets: [
        .binaryTarget(name: "CSeg2", path: "Seg2.xcframework"),
        .target(name: "Seg2", dependencies: ["CSeg2"]),
    ]
)
