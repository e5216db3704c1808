// What the OWL API makes of ontologies, for checks/readers.sh, which says how it is run.
//
//   Readers axioms A B [NAMES]        compares the logical axioms of two ontologies; each line of NAMES has the IRI of a
//                                     relation and the one that stands for it in A before they are compared
//   Readers module WHOLE TERMS KIND OURS   compares the module of KIND (BOT, TOP, STAR) that the OWL API takes of WHOLE, for
//                                     the classes whose IRIs stand in TERMS, one on each line, with an ontology
//   Readers above A B                 compares the pairs of a class and a class above it
//
// Each prints one line: how many the first one has, how many the second one has, how many only the first one has, how
// many only the second one has. To standard error go the first twenty that only one has.

import java.io.File;
import java.io.IOException;
import java.nio.file.Files;
import java.util.ArrayDeque;
import java.util.Deque;
import java.util.HashMap;
import java.util.HashSet;
import java.util.List;
import java.util.Map;
import java.util.Set;
import java.util.TreeSet;
import java.util.stream.Collectors;
import org.semanticweb.owlapi.apibinding.OWLManager;
import org.semanticweb.owlapi.model.IRI;
import org.semanticweb.owlapi.model.OWLAxiom;
import org.semanticweb.owlapi.model.OWLClass;
import org.semanticweb.owlapi.model.OWLClassExpression;
import org.semanticweb.owlapi.model.OWLEntity;
import org.semanticweb.owlapi.model.OWLEquivalentClassesAxiom;
import org.semanticweb.owlapi.model.OWLInverseObjectPropertiesAxiom;
import org.semanticweb.owlapi.model.OWLOntology;
import org.semanticweb.owlapi.model.OWLOntologyCreationException;
import org.semanticweb.owlapi.model.OWLOntologyManager;
import org.semanticweb.owlapi.model.OWLSubClassOfAxiom;
import org.semanticweb.owlapi.util.OWLEntityRenamer;
import uk.ac.manchester.cs.owlapi.modularity.ModuleType;
import uk.ac.manchester.cs.owlapi.modularity.SyntacticLocalityModuleExtractor;

public class Readers {
  public static void main(String[] words) throws Exception {
    switch (words[0]) {
      case "axioms":
        OWLOntology first = read(words[1]);
        compare(logical(words.length > 3 ? renamed(first, words[3]) : first), logical(read(words[2])));
        break;
      case "module":
        compare(module(read(words[1]), words[2], ModuleType.valueOf(words[3])), logical(read(words[4])));
        break;
      case "above":
        compare(above(read(words[1])), above(read(words[2])));
        break;
      default:
        throw new IllegalArgumentException(words[0]);
    }
  }

  static OWLOntology read(String file) throws OWLOntologyCreationException {
    return OWLManager.createOWLOntologyManager().loadOntologyFromOntologyDocument(new File(file));
  }

  /** The logical axioms, without their annotations. */
  static Set<String> logical(OWLOntology ontology) {
    return texts(ontology.logicalAxioms().map(axiom -> (OWLAxiom) axiom).collect(Collectors.toList()));
  }

  static Set<String> texts(Iterable<OWLAxiom> axioms) {
    Set<String> texts = new TreeSet<>();
    for (OWLAxiom axiom : axioms) {
      if (axiom.isLogicalAxiom()) {
        texts.add(text(axiom.getAxiomWithoutAnnotations()));
      }
    }
    return texts;
  }

  /** The text of an axiom; of two inverse roles, which may stand in any order, the least of both. */
  static String text(OWLAxiom axiom) {
    if (!(axiom instanceof OWLInverseObjectPropertiesAxiom)) {
      return axiom.toString();
    }
    OWLInverseObjectPropertiesAxiom inverse = (OWLInverseObjectPropertiesAxiom) axiom;
    String one = inverse.getFirstProperty() + " " + inverse.getSecondProperty();
    String other = inverse.getSecondProperty() + " " + inverse.getFirstProperty();
    return "InverseObjectProperties(" + (one.compareTo(other) < 0 ? one : other) + ")";
  }

  /** The ontology with the IRIs of relations in the first column of a file given up for those in the second one. */
  static OWLOntology renamed(OWLOntology ontology, String names) throws IOException {
    OWLOntologyManager manager = ontology.getOWLOntologyManager();
    Map<OWLEntity, IRI> others = new HashMap<>();
    for (String line : Files.readAllLines(new File(names).toPath())) {
      String[] columns = line.split(" ");
      others.put(manager.getOWLDataFactory().getOWLObjectProperty(IRI.create(columns[0])), IRI.create(columns[1]));
    }
    manager.applyChanges(new OWLEntityRenamer(manager, List.of(ontology)).changeIRI(others));
    return ontology;
  }

  static Set<String> module(OWLOntology whole, String terms, ModuleType kind) throws Exception {
    Set<OWLEntity> seed = new HashSet<>();
    for (String iri : Files.readAllLines(new File(terms).toPath())) {
      seed.add(whole.getOWLOntologyManager().getOWLDataFactory().getOWLClass(IRI.create(iri)));
    }
    return texts(new SyntacticLocalityModuleExtractor(whole.getOWLOntologyManager(), whole, kind).extract(seed));
  }

  /** Each class with each class above it, by way of the inclusions and equivalences between named classes. */
  static Set<String> above(OWLOntology ontology) {
    Map<OWLClass, Set<OWLClass>> edges = new HashMap<>();
    ontology.axioms().forEach(axiom -> addEdges(edges, axiom));
    Set<String> pairs = new TreeSet<>();
    for (OWLClass start : edges.keySet()) {
      Set<OWLClass> seen = new HashSet<>();
      Deque<OWLClass> waiting = new ArrayDeque<>(edges.get(start));
      while (!waiting.isEmpty()) {
        OWLClass next = waiting.pop();
        if (seen.add(next)) {
          waiting.addAll(edges.getOrDefault(next, Set.of()));
        }
      }
      for (OWLClass one : seen) {
        if (!one.equals(start) && !one.isOWLThing() && !start.isOWLNothing()) {
          pairs.add(start.getIRI() + " " + one.getIRI());
        }
      }
    }
    return pairs;
  }

  static void addEdges(Map<OWLClass, Set<OWLClass>> edges, OWLAxiom axiom) {
    if (axiom instanceof OWLSubClassOfAxiom) {
      OWLSubClassOfAxiom below = (OWLSubClassOfAxiom) axiom;
      addEdge(edges, below.getSubClass(), below.getSuperClass());
    } else if (axiom instanceof OWLEquivalentClassesAxiom) {
      List<OWLClassExpression> all = ((OWLEquivalentClassesAxiom) axiom).getOperandsAsList();
      for (OWLClassExpression one : all) {
        for (OWLClassExpression other : all) {
          addEdge(edges, one, other);
        }
      }
    }
  }

  static void addEdge(Map<OWLClass, Set<OWLClass>> edges, OWLClassExpression below, OWLClassExpression above) {
    if (!below.isAnonymous() && !above.isAnonymous() && !below.equals(above)) {
      edges.computeIfAbsent(below.asOWLClass(), key -> new HashSet<>()).add(above.asOWLClass());
    }
  }

  static void compare(Set<String> first, Set<String> second) {
    Set<String> firstAlone = new TreeSet<>(first);
    firstAlone.removeAll(second);
    Set<String> secondAlone = new TreeSet<>(second);
    secondAlone.removeAll(first);
    firstAlone.stream().limit(20).forEach(text -> System.err.println("only the first: " + text));
    secondAlone.stream().limit(20).forEach(text -> System.err.println("only the second: " + text));
    System.out.println(first.size() + " " + second.size() + " " + firstAlone.size() + " " + secondAlone.size());
  }
}
