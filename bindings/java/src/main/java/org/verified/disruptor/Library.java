package org.verified.disruptor;

import java.io.IOException;
import java.io.InputStream;
import java.nio.file.Files;
import java.nio.file.Path;
import java.nio.file.StandardCopyOption;

/** Where the proved library is. */
final class Library {
    private static final String FILE = "libdisruptor_jni.so";

    private Library() {}

    /** The file that the property {@code disruptor.library} names, or that of the jar, unpacked for the time that this program runs. */
    static String path() {
        String given = System.getProperty("disruptor.library");
        if (given != null) {
            return Path.of(given).toAbsolutePath().toString();
        }
        String name = System.getProperty("os.name") + "-" + System.getProperty("os.arch") + "/" + FILE;
        try (InputStream library = Library.class.getResourceAsStream(name)) {
            if (library == null) {
                throw new UnsatisfiedLinkError("the jar has no " + name + ": name one in the property disruptor.library");
            }
            Path folder = Files.createTempDirectory("disruptor");
            Path file = folder.resolve(FILE);
            folder.toFile().deleteOnExit();
            file.toFile().deleteOnExit();
            Files.copy(library, file, StandardCopyOption.REPLACE_EXISTING);
            return file.toString();
        } catch (IOException failed) {
            throw new UnsatisfiedLinkError("the library is not unpacked: " + failed);
        }
    }
}
