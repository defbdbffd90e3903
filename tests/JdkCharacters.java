import java.io.ByteArrayInputStream;
import java.nio.charset.StandardCharsets;
import java.util.ArrayList;
import java.util.HashSet;
import java.util.List;
import java.util.Set;
import java.util.TreeSet;
import javax.xml.parsers.SAXParserFactory;
import org.xml.sax.SAXException;
import org.xml.sax.helpers.DefaultHandler;

/**
 * Which characters OpenJDK's parser takes in attribute values; tests/characters.txt is its output (java tests/JdkCharacters.java).
 *
 * A line is a document: + where the parser takes it and - where it does not, the XML version, the attribute's value as it is written,
 * and, where the value refers to the entity e, its replacement text after `e=`, with TABs between. A replacement text is what is
 * declared after line ends and with character references replaced (XML 1.0 and 1.1, 4.5). What is not ASCII that prints is escaped byte by
 * byte, as printf's %b reads it. tests/characters.sh replays the lines.
 *
 * The characters are those on both sides of each end of the ranges of Char (2.2 of XML 1.0, fifth edition, and of XML 1.1) and of
 * RestrictedChar (2.2 of XML 1.1), raw and by their numbers, in the value and in the entity's text. Left out are
 * - surrogates and numbers above 10FFFF where they would have to stand raw: UTF-8 has none;
 * - under 1.1 a raw RestrictedChar in a declaration. By 2.2 it may not stand in a document, and the parser does not take it; but in the
 *   entity's replacement text, which is what a table has, it may come by a reference in the declaration, and those are here.
 */
class JdkCharacters {
    /** The first and the last of each range, in no order. */
    private static final int[] ENDS = {
        0x1, 0x8, 0x9, 0xA, 0xB, 0xC, 0xD, 0xE, 0x1F, 0x20, 0x7F, 0x84, 0x86, 0x9F, 0xD7FF, 0xE000, 0xFFFD, 0x10000, 0x10FFFF,
    };

    /** A text that is declared raw and by a reference makes one line, unless the answers differ. */
    private static final Set<String> LINES = new HashSet<>();

    public static void main(String[] arguments) throws Exception {
        System.out.println("# OpenJDK's answer, XML version, attribute value, replacement text of e: tests/JdkCharacters.java says more.");
        TreeSet<Integer> characters = new TreeSet<>();
        for (int end : ENDS) {
            characters.addAll(List.of(end - 1, end, end + 1));
        }
        for (String version : List.of("1.0", "1.1")) {
            for (int character : characters) {
                all(version, character);
            }
        }
    }

    private static void all(String version, int character) throws Exception {
        String number = String.format("x%X;z", character);
        boolean isScalar = Character.isValidCodePoint(character) && (character < 0xD800 || character > 0xDFFF);
        String raw = isScalar ? "a" + Character.toString(character) + "z" : null;
        show(version, "a&#" + number, null, null);
        show(version, "&e;", "a&#38;#" + number, "a&#" + number);
        if (isScalar) {
            show(version, raw, null, null);
            show(version, "&e;", "a&#" + number, raw);
        }
        if (isScalar && !(version.equals("1.1") && isRestricted(character))) {
            show(version, "&e;", raw, afterLineEnds(version, raw));
        }
    }

    private static boolean isRestricted(int character) {
        return Character.getType(character) == Character.CONTROL && character != 0 && "\t\n\r\u0085".indexOf(character) < 0;
    }

    private static String afterLineEnds(String version, String text) {
        String ended = text.replace('\r', '\n');
        return version.equals("1.1") ? ended.replace('\u0085', '\n').replace('\u2028', '\n') : ended;
    }

    private static void show(String version, String value, String declared, String replacement) throws Exception {
        String declaration = declared == null ? "" : "<!DOCTYPE r [<!ENTITY e \"" + declared + "\">]>";
        String document = "<?xml version=\"" + version + "\"?>" + declaration + "<r a=\"" + value + "\"/>";
        List<String> fields = new ArrayList<>(List.of(isTaken(document) ? "+" : "-", version, escaped(value)));
        if (replacement != null) {
            fields.add("e=" + escaped(replacement));
        }
        String line = String.join("\t", fields);
        if (LINES.add(line)) {
            System.out.println(line);
        }
    }

    private static boolean isTaken(String document) throws Exception {
        byte[] bytes = document.getBytes(StandardCharsets.UTF_8);
        try {
            SAXParserFactory.newInstance().newSAXParser().parse(new ByteArrayInputStream(bytes), new DefaultHandler());
            return true;
        } catch (SAXException refused) {
            return false;
        }
    }

    private static String escaped(String text) {
        StringBuilder result = new StringBuilder();
        for (byte one : text.getBytes(StandardCharsets.UTF_8)) {
            boolean prints = one >= ' ' && one <= '~' && one != '\\';
            result.append(prints ? String.valueOf((char) one) : String.format("\\x%02x", one & 0xFF));
        }
        return result.toString();
    }
}
